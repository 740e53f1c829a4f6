
-- How a chunk moves, and how its source gets it back if its destination can't load it. It goes on behind guard.lua.

-- Of a value how many bytes its dump has, if these are more than MOST. A dump is mostly no longer than the memory that the
-- value takes, and may be much shorter. A few elements show whether it is worth a closer look.
local function oversize(key, most)
  local memory = redis.call('MEMORY', 'USAGE', key, 'SAMPLES', 20)
  if not memory or memory * 4 <= most then
    return nil
  end
  memory = redis.call('MEMORY', 'USAGE', key, 'SAMPLES', 0)
  if memory <= most then
    return nil
  elseif memory > most * 8 then
    return memory
  end
  local length = #redis.call('DUMP', key)
  return length > most and length or nil
end

-- Keys; MOST: of each whose dump has more bytes its position among them and that length.
redis.register_function({
  function_name = 'squall_large',
  flags = { 'no-writes', 'allow-oom' },
  callback = function(keys, args)
    local found, most = {}, tonumber(args[1])
    for at, key in ipairs(keys) do
      local size = oversize(key, most)
      if size then
        found[#found + 1] = at
        found[#found + 1] = size
      end
    end
    return found
  end,
})

-- Keys; NUMBER LO EDGE [PART GENERATION MOST]: the keys of the move from LO on, below EDGE, are given. Nothing is if one of
-- those that are named is too large, or if the course is closed.
redis.register_function({
  function_name = 'squall_give',
  flags = { 'allow-oom' },
  callback = function(keys, args)
    local move, refused = own_move(args, 'out')
    if refused then
      return refused
    elseif args[3] > move.edge and known().is_closed then
      return refuse('CLOSED ' .. args[1])
    end
    for at, key in ipairs(args[3] > move.edge and keys or {}) do
      local size = oversize(key, tonumber(args[6]))
      if size then
        return refuse('LARGE ' .. at .. ' ' .. size)
      end
    end
    return step(args, move, 'edge', 'squall:edge')
  end,
})

-- Forgets which rows were put from a rank on, below another one.
local function settle(lo, hi)
  local arrived, first, last = 'squall:arrived', '[' .. lo, '(' .. hi
  if redis.call('ZLEXCOUNT', arrived, first, last) == redis.call('ZCARD', arrived) then
    redis.call('UNLINK', arrived)
  else
    redis.call('ZREMRANGEBYLEX', arrived, first, last)
  end
end

-- Why a row or a load of that generation of the source does not count: the source takes it back.
local function of_past(move, generation)
  if tonumber(generation or 0) <= move.back then
    return refuse('BACK ' .. move.peer)
  end
end

-- Notes a row that was put, of that generation of the source.
local function arrive(move, rank, key, generation)
  redis.call('ZADD', 'squall:arrived', 0, rank .. key)
  if tonumber(generation or 0) > move.put then
    move.put = tonumber(generation)
    redis.call('HSET', 'squall:put', move.lo, generation)
  end
end

-- A key; NUMBER RANK, when it ends, its DUMP, and [PART GENERATION] of its give: puts it where it comes to, unless it
-- was loaded.
redis.register_function('squall_put', function(keys, args)
  local course = known()
  if args[1] ~= course.number then
    return refuse('COURSE ' .. course.number)
  end
  local move = move_at(course, args[2])
  if not move or move.role ~= 'in' then
    return refuse('STRANGER')
  elseif args[2] < move.edge or course.pulled[args[2]] then
    return redis.status_reply('loaded')
  end
  local late = before(args[5], args[6])
  local refused = late and refuse(late) or of_past(move, args[6])
  if refused then
    return refused
  end
  redis.call('RESTORE', keys[1], args[3], args[4], 'REPLACE', 'ABSTTL')
  arrive(move, args[2], keys[1], args[6])
  return redis.status_reply('put')
end)

-- NUMBER LO EDGE [PART GENERATION]: they are loaded. Never undone.
redis.register_function({
  function_name = 'squall_load',
  flags = { 'allow-oom' },
  callback = function(_, args)
    local move, refused = own_move(args, 'in')
    if move and args[3] > move.edge then
      refused = of_past(move, args[5])
    end
    if refused then
      return refused
    elseif args[3] > move.edge then
      settle(move.edge, args[3])
    end
    return step(args, move, 'edge', 'squall:edge')
  end,
})

-- NUMBER LO EDGE PART GENERATION [RANK]: what the source has given from EDGE on, up to that generation of it, never counts,
-- and its rows are unlinked. EDGE is how far the move is loaded: otherwise nothing changes, and the answer says another one.
-- Nothing changes either if that rank is loaded.
redis.register_function({
  function_name = 'squall_back',
  flags = { 'allow-oom' },
  callback = function(_, args)
    local move, refused = own_move(args, 'in')
    if refused then
      return refused
    elseif args[3] ~= move.edge then
      return redis.status_reply(move.edge .. ' 0')
    elseif args[6] and (args[6] < move.edge or known().pulled[args[6]]) then
      return refuse('LOADED')
    elseif tonumber(args[5]) < move.put then
      return refuse('CHANGED')
    end
    for _, row in ipairs(redis.call('ZRANGEBYLEX', 'squall:arrived', '[' .. move.edge, '(' .. move.hi)) do
      redis.call('UNLINK', string.sub(row, 17))
    end
    settle(move.edge, move.hi)
    local is_new = tonumber(args[5]) > move.back
    if is_new then
      move.back = tonumber(args[5])
      redis.call('HSET', 'squall:back', move.lo, args[5])
    end
    return step(args, move, 'edge', 'squall:edge', is_new)
  end,
})

-- NUMBER LO EDGE PART GENERATION OWN: takes back what was given from EDGE on, once squall_back was done for the generation
-- OWN of this partition. That has to be its generation still: a mover that knows a later one may load the keys.
redis.register_function({
  function_name = 'squall_take',
  flags = { 'allow-oom' },
  callback = function(_, args)
    local move, refused = own_move(args, 'out')
    if refused then
      return refused
    elseif args[3] >= move.edge then
      return redis.status_reply(move.edge .. ' 0')
    elseif args[3] < move.forgot or args[6] ~= redis.call('GET', 'squall:generation') then
      return refuse('CHANGED')
    end
    write_down('take', args[1], args[3], move.edge, move.peer)
    redis.call('HSET', 'squall:edge', move.lo, args[3])
    move.edge = args[3]
    return step(args, move, 'edge', 'squall:edge', true)
  end,
})

-- Keys that were given and loaded; NUMBER LO EDGE [PART GENERATION]: unlinks them. All below EDGE are forgotten then.
redis.register_function({
  function_name = 'squall_forget',
  flags = { 'allow-oom' },
  callback = function(keys, args)
    local move, refused = own_move(args, 'out')
    if refused then
      return refused
    elseif args[3] > move.edge then
      return refuse('STRANGER')
    end
    local count = 0
    for _, key in ipairs(keys) do
      count = count + redis.call('UNLINK', key)
    end
    if count > 0 then
      redis.call('HINCRBY', 'squall:gone', move.lo, count)
    end
    return step(args, move, 'forgot', 'squall:forgot', count > 0)
  end,
})
