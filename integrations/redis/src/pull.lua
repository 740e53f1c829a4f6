
-- How all keys of one rank are pulled: they move ahead of their move's edge. It goes on behind chunk.lua.

-- No more ranks that were given so are kept at a source.
local PULLED = 1024

-- Notes how far a rank is. Who watches the edges learns of it. What was loaded is no longer a row that may go back.
local function note(move, rank, state)
  if state == 'loaded' then
    settle(rank, after(rank))
  end
  if state then
    redis.call('HSET', 'squall:pulled', rank, state)
  else
    redis.call('HDEL', 'squall:pulled', rank)
  end
  known().pulled[rank] = state
  write_down('pulled', known().number, rank, move.peer, string.match(state or 'taken', '^%a+'))
  redis.call('HSET', 'squall:edge', move.lo, move.edge)
end

-- The move of NUMBER LO RANK [PART GENERATION], if the rank is one of it.
local function pulling(args, role)
  local move, refused = own_move(args, role)
  if move and (args[3] < move.lo or args[3] >= move.hi) then
    return nil, refuse('STRANGER')
  end
  return move, refused
end

-- The answer to such a step: how far the rank is, and the generation.
local function told(args, state, has_changed)
  if has_changed then
    grow()
  end
  see(args, 4)
  return redis.status_reply(state .. ' ' .. (redis.call('GET', 'squall:generation') or '0'))
end

-- Keys; NUMBER LO RANK [PART GENERATION MOST]: the keys of that rank are given, unless one of those that are named is too
-- large, or the course is closed. Also what was given with a chunk is noted, since that may go back.
redis.register_function({
  function_name = 'squall_pull_give',
  flags = { 'allow-oom' },
  callback = function(keys, args)
    local move, refused = pulling(args, 'out')
    if refused then
      return refused
    end
    local rank = args[3]
    local state = rank < move.forgot and 'forgotten' or known().pulled[rank]
    if state then
      return told(args, string.match(state, '^%a+'))
    elseif known().is_closed then
      return refuse('CLOSED ' .. args[1])
    elseif redis.call('GET', 'squall:fence') ~= args[1] then
      return refuse('EARLY')
    elseif redis.call('HLEN', 'squall:pulled') >= PULLED then
      return refuse('FULL ' .. PULLED)
    end
    for at, key in ipairs(rank >= move.edge and keys or {}) do
      local size = oversize(key, tonumber(args[6]))
      if size then
        return refuse('LARGE ' .. at .. ' ' .. size)
      end
    end
    note(move, rank, 'given')
    return told(args, 'given', true)
  end,
})

-- NUMBER LO RANK PART GENERATION: the keys of that rank are loaded. Never undone.
redis.register_function({
  function_name = 'squall_pull_load',
  flags = { 'allow-oom' },
  callback = function(_, args)
    local move, refused = pulling(args, 'in')
    if refused then
      return refused
    end
    local rank = args[3]
    if rank < move.edge or known().pulled[rank] then
      return told(args, 'loaded')
    end
    local late = of_past(move, args[5])
    if late then
      return late
    end
    note(move, rank, 'loaded')
    return told(args, 'loaded', true)
  end,
})

-- NUMBER LO RANK PART GENERATION OWN: the rank is no longer given ahead of the edge, once squall_back was done for the
-- generation OWN of this partition. That has to be its generation still.
redis.register_function({
  function_name = 'squall_pull_take',
  flags = { 'allow-oom' },
  callback = function(_, args)
    local move, refused = pulling(args, 'out')
    if refused then
      return refused
    end
    local state = known().pulled[args[3]]
    if not state and args[3] >= move.forgot then
      return told(args, 'taken')
    elseif state ~= 'given' or args[6] ~= redis.call('GET', 'squall:generation') then
      return refuse('CHANGED')
    end
    note(move, args[3], nil)
    return told(args, 'taken', true)
  end,
})

-- Keys of a rank that is loaded; NUMBER LO RANK PART GENERATION: unlinks them.
redis.register_function({
  function_name = 'squall_pull_forget',
  flags = { 'allow-oom' },
  callback = function(keys, args)
    local move, refused = pulling(args, 'out')
    if refused then
      return refused
    end
    local rank = args[3]
    local state = known().pulled[rank]
    if not state and rank >= move.forgot then
      return refuse('STRANGER')
    end
    local count = 0
    for _, key in ipairs(keys) do
      count = count + redis.call('UNLINK', key)
    end
    if state then
      local before_that = tonumber(string.match(state, '^forgotten:(%d+)$') or 0)
      note(move, rank, 'forgotten:' .. before_that + count)
    elseif count > 0 then
      redis.call('HINCRBY', 'squall:gone', move.lo, count)
    end
    return told(args, 'forgotten', count > 0 or state == 'given')
  end,
})
