
-- How a partition that comes back with less is found out, and let in all the same. It goes on behind guard.lua.

-- What a partition says of itself: its number, its generation, the course of its fence, the run in which it let
-- routers in, what it has seen of others, and each move as LO HI ROLE PEER EDGE FORGOT GONE RANK:STATE.. with the ranks
-- that were pulled. If it is closed in its course, it says so last.
redis.register_function({
  function_name = 'squall_state',
  flags = { 'no-writes', 'allow-oom' },
  callback = function()
    local course, lines = known(), {}
    local pulled = pulled_of_moves(course)
    for at, move in ipairs(course.moves) do
      local gone = redis.call('HGET', 'squall:gone', move.lo) or '0'
      local words = { move.lo, move.hi, move.role, move.peer, move.edge, move.forgot, gone }
      for rank, state in pairs(pulled[move] or {}) do
        words[#words + 1] = rank .. ':' .. state
      end
      lines[at] = table.concat(words, ' ')
    end
    local said = { course.number }
    for at, name in ipairs({ 'generation', 'fence', 'run' }) do
      said[at + 1] = redis.call('GET', 'squall:' .. name) or ''
    end
    said[5], said[6] = redis.call('HGETALL', 'squall:seen'), lines
    said[7] = course.is_closed and 'closed' or nil
    return said
  end,
})

-- NUMBER [PART GENERATION]..: the course of that number has begun at all partitions, which had these generations.
redis.register_function({
  function_name = 'squall_fence',
  flags = { 'allow-oom' },
  callback = function(_, args)
    if args[1] ~= known().number then
      return refuse('COURSE ' .. known().number)
    end
    redis.call('SET', 'squall:fence', args[1])
    see(args, 2)
    return redis.status_reply('OK')
  end,
})

-- RUN: the run of the server in which routers are let in. A mark is a write that is not seen.
redis.register_function({
  function_name = 'squall_run',
  flags = { 'allow-oom' },
  callback = function(_, args)
    return redis.call('SET', 'squall:run', args[1])
  end,
})
redis.register_function({
  function_name = 'squall_mark',
  flags = { 'allow-oom' },
  callback = function()
    return redis.call('SET', 'squall:mark', '1')
  end,
})

-- Nothing that was done at another partition before that generation counts from now on.
local function drop_before(part, generation)
  local before = redis.call('HGET', 'squall:since', part)
  if tonumber(generation) > tonumber(before or 0) then
    redis.call('HSET', 'squall:since', part, generation)
  end
end

-- PART GENERATION: the same, of a partition that is let in with less.
redis.register_function({
  function_name = 'squall_since',
  flags = { 'allow-oom' },
  callback = function(_, args)
    drop_before(args[1], args[2])
    return redis.status_reply('OK')
  end,
})

-- NUMBER OLD NEW OWN:NEXT:ROWS[:PART=GENERATION..] MOVE..: goes on with what there is. Its generation was OWN when it
-- was looked at, and rises to NEXT; about ROWS rows are lost. Each move has a further word, EDGE[+RANK..]: the rank to
-- which its edge rises at least, and those that were given or loaded ahead of it. The generations are those of the other
-- partitions. What they have done before does not count here: this one may have lost that it has refused it.
redis.register_function('squall_accept', function(_, args)
  local course = known()
  local own, next, rows, others = string.match(args[4], '^(%d+):(%d+):(%d+)([%d:=]*)$')
  if (redis.call('GET', 'squall:generation') or '0') ~= own then
    return refuse('CHANGED')
  elseif tonumber(args[1]) < tonumber(course.number) then
    return refuse('LATE ' .. course.number)
  end
  local edges, pulled = {}, {}
  for at = 5, #args do
    args[at], edges[at], pulled[at] = string.match(args[at], '^(.+) (%x+)([+%x]*)$')
  end
  if args[1] ~= course.number then
    begin(args)
  elseif not is_same(course, args) then
    return refuse('CLASH ' .. course.number)
  end
  for at, move in ipairs(known().moves) do
    raise(move, 'edge', 'squall:edge', edges[4 + at])
    for rank in string.gmatch(pulled[4 + at], '%x+') do
      local is_passed = rank < (move.role == 'in' and move.edge or move.forgot)
      if not is_passed and not known().pulled[rank] then
        note(move, rank, move.role == 'in' and 'loaded' or 'given')
      end
    end
  end
  for part, generation in string.gmatch(others, ':(%d+)=(%d+)') do
    drop_before(part, generation)
    -- If that one falls below it, its gives would be refused: so this is found out.
    see({ part, generation }, 1)
  end
  redis.call('HINCRBY', 'squall:losses', 'times', 1)
  redis.call('HINCRBY', 'squall:losses', 'rows', rows)
  return redis.status_reply('accepted ' .. grow(next - 1))
end)
