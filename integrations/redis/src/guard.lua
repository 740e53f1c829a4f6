#!lua name=squall
-- What a partition knows of the course under way. PROTOCOL.md says what each function is for.
--
-- squall:number  the course's number
-- squall:old     its plans, as the mover writes them: the bound at which each range ends, and its
-- squall:new     partition
-- squall:moves   a list, one text for each move by rising key: LO HI ROLE PEER. LO and HI are ranks of
--                16 hexadecimal digits. ROLE is out, in or none. PEER is the partition at the other end
--                of the move, or its source if ROLE is none
-- squall:issue   the frame by which routers learn of a course, in hexadecimal digits. It is written once all
--                partitions have begun that course, and may be older than the number
-- squall:edge    of a move's LO the rank below which its keys were given (out) or loaded (in)
-- squall:forgot  of a move's LO the rank below which the source has unlinked what it gave
-- squall:gone    of a move's LO how many rows the source has unlinked
-- squall:put     of a move's LO the highest generation of its source with which a row was put
-- squall:arrived the rank and the name of each row that was put and is not loaded
-- squall:back    of a move's LO the generation of its source up to which nothing counts any more that is not loaded: the source
--                takes it back
-- squall:closed  the course in which it gives nothing more, since that is turned back
-- squall:pulled  of a rank that has moved ahead of its move's edge how far it is: given, or forgotten:ROWS once the source
--                has unlinked so many rows of it, or loaded
--
-- So that a partition that comes back with less is found out, and no other one forgets what it was told:
--
-- squall:generation  a number that each begin, give, load and forget raises
-- squall:seen        of other partitions the highest generation that was seen of them
-- squall:since       of other partitions the generation before which nothing counts: they were let in with less then
-- squall:fence       the course of which it is known that it has begun at all partitions
-- squall:run         the run of the server in which it let routers in last
-- squall:losses      how often it was let in with less (times), and about how many rows were lost (rows)
--
-- If a mover has asked for it:
--
-- squall:log         a list of what was done here, one text for each step. Nothing here reads it
--
-- Functions that need no memory also run if the server has none left.
--
-- Nothing but these functions changes these keys. So what was read of the course is kept from call to call.
-- A server that loads its data again loads this library again too, and reads them anew.
local kept = nil

local function read_move(text)
  local lo, hi, role, peer = string.match(text, '^(%x+) (%x+) (%a+) (%d+)$')
  return {
    lo = lo, hi = hi, role = role, peer = peer,
    edge = redis.call('HGET', 'squall:edge', lo) or lo,
    forgot = redis.call('HGET', 'squall:forgot', lo) or lo,
    put = tonumber(redis.call('HGET', 'squall:put', lo) or 0),
    back = tonumber(redis.call('HGET', 'squall:back', lo) or -1),
  }
end

local function read_pulled()
  local pulled, words = {}, redis.call('HGETALL', 'squall:pulled')
  for at = 1, #words, 2 do
    pulled[words[at]] = words[at + 1]
  end
  return pulled
end

local function known()
  if not kept then
    local moves = {}
    for _, text in ipairs(redis.call('LRANGE', 'squall:moves', 0, -1)) do
      moves[#moves + 1] = read_move(text)
    end
    local number = redis.call('GET', 'squall:number') or '0'
    local is_closed = redis.call('GET', 'squall:closed') == number
    kept = { number = number, is_closed = is_closed, moves = moves, pulled = read_pulled() }
  end
  return kept
end

local function refuse(text)
  return redis.error_reply('SQUALL ' .. text)
end

-- Writes down what is done, in the same step, if there is a list for it.
local function write_down(...)
  redis.call('RPUSHX', 'squall:log', table.concat({ ... }, ' '))
end

-- PART TEXT..: from now on this partition, of that number, writes down what it does. The texts are what a mover does for it.
redis.register_function({
  function_name = 'squall_deeds',
  flags = { 'allow-oom' },
  callback = function(_, args)
    if redis.call('EXISTS', 'squall:log') == 0 then
      redis.call('RPUSH', 'squall:log', 'part ' .. args[1])
    end
    for at = 2, #args do
      write_down(args[at])
    end
    return redis.status_reply('OK')
  end,
})

-- Raises the generation, at least to one above LEAST: what it is now.
local function grow(least)
  local now = tonumber(redis.call('GET', 'squall:generation') or 0)
  local next = math.max(now, tonumber(least or 0)) + 1
  redis.call('SET', 'squall:generation', next)
  return next
end

-- Notes generations of other partitions: PART GENERATION .. from an argument on.
local function see(args, first)
  for at = first, #args - 1, 2 do
    local before = redis.call('HGET', 'squall:seen', args[at])
    if tonumber(args[at + 1]) > tonumber(before or 0) then
      redis.call('HSET', 'squall:seen', args[at], args[at + 1])
    end
  end
end

-- The last move that begins at the rank or before it.
local function move_at(course, rank)
  local first, after = 1, #course.moves + 1
  while first < after do
    local middle = math.floor((first + after) / 2)
    if course.moves[middle].lo <= rank then
      first = middle + 1
    else
      after = middle
    end
  end
  local move = course.moves[first - 1]
  if move and rank < move.hi then
    return move
  end
end

-- Where a key is, if it is not here.
local function say(course, rank)
  local move = move_at(course, rank)
  if not move then
    return nil
  elseif move.role == 'none' then
    return 'ELSEWHERE ' .. move.peer
  elseif move.role == 'out' and (rank < move.edge or course.pulled[rank]) then
    return 'MOVED ' .. move.peer .. ' ' .. course.number
  elseif move.role == 'in' and rank >= move.edge and not course.pulled[rank] then
    -- What goes back to its source does not come, until a row of it is put once more.
    return (move.put > move.back and 'PENDING ' or 'ELSEWHERE ') .. move.peer
  end
end

-- The same of several keys. If only some of them are here, or they are in several places, SPLIT.
local function say_all(course, args, first, last)
  local said = say(course, args[first])
  for at = first + 1, last do
    local next = say(course, args[at])
    if next ~= said then
      return 'SPLIT'
    end
  end
  return said
end

-- A number from 2^53 on is not exact in Lua. The key still has its digits.
local function exact(reply, command, key, field)
  if type(reply) ~= 'number' or math.abs(reply) < 9007199254740992 then
    return reply
  end
  local name = string.upper(command)
  if name == 'HINCRBY' then
    return redis.status_reply('SQUALL INT ' .. redis.call('HGET', key, field))
  elseif name == 'INCR' or name == 'INCRBY' or name == 'DECR' or name == 'DECRBY' then
    return redis.status_reply('SQUALL INT ' .. redis.call('GET', key))
  end
  return reply
end

-- NUMBER PROTO COUNT RANK.. COMMAND..: does a command on keys of these ranks, or says where they are.
local function serve(_, args)
  local course = known()
  if args[1] ~= course.number then
    return refuse('COURSE ' .. course.number)
  end
  local first = 4 + tonumber(args[3])
  local said = say_all(course, args, 4, first - 1)
  if said then
    return refuse(said)
  end
  if args[2] == '3' then
    redis.setresp(3)
  end
  return exact(redis.pcall(unpack(args, first)), args[first], args[first + 1], args[first + 2])
end

-- A server refuses a function as it would refuse a command with these flags: one that reads is done also without memory
-- and disk, and one that needs no memory also without memory.
redis.register_function('squall_do', serve)
redis.register_function({ function_name = 'squall_free', flags = { 'allow-oom' }, callback = serve })
redis.register_function({ function_name = 'squall_read', flags = { 'no-writes' }, callback = serve })

-- NUMBER RANK..: whether all keys of these ranks are here, or where they are. A transaction that watches
-- squall:number and squall:edge before it asks, and is done, was done while they were here.
redis.register_function({
  function_name = 'squall_check',
  flags = { 'no-writes', 'allow-oom' },
  callback = function(_, args)
    local course = known()
    if args[1] ~= course.number then
      return refuse('COURSE ' .. course.number)
    end
    local said = say_all(course, args, 2, #args)
    return said and refuse(said) or redis.status_reply('here')
  end,
})

-- Of each move whose keys were pulled their ranks, and how far each is.
local function pulled_of_moves(course)
  local all = {}
  for rank, state in pairs(course.pulled) do
    local move = move_at(course, rank)
    if move then
      all[move] = all[move] or {}
      all[move][rank] = state
    end
  end
  return all
end

-- Adds each move as LO HI ROLE PEER EDGE FORGOT RANK.. to the lines. The ranks are those that were loaded ahead of the edge.
local function with_moves(lines, course)
  local pulled = pulled_of_moves(course)
  for _, move in ipairs(course.moves) do
    local words = { move.lo, move.hi, move.role, move.peer, move.edge, move.forgot }
    for rank in pairs(move.role == 'in' and pulled[move] or {}) do
      words[#words + 1] = rank
    end
    lines[#lines + 1] = table.concat(words, ' ')
  end
  return lines
end

-- NUMBER [PLAN]: each move of that course as LO HI ROLE PEER EDGE FORGOT RANK.., if the course ends at that plan.
redis.register_function({
  function_name = 'squall_moves',
  flags = { 'no-writes', 'allow-oom' },
  callback = function(_, args)
    local course = known()
    if args[1] ~= course.number then
      return refuse('COURSE ' .. course.number)
    elseif args[2] and args[2] ~= redis.call('GET', 'squall:new') then
      return refuse('CLASH ' .. course.number)
    end
    return with_moves({}, course)
  end,
})

-- For routers that hear nothing from the bus: the number, the issue, and each move as squall_moves says it.
redis.register_function({
  function_name = 'squall_course',
  flags = { 'no-writes', 'allow-oom' },
  callback = function()
    local course = known()
    return with_moves({ course.number, redis.call('GET', 'squall:issue') or '' }, course)
  end,
})

-- Why a step does not count that follows one at another partition, which had that generation then: a mover that was
-- asleep may know of what was lost there since.
local function before(part, generation)
  local since = generation and redis.call('HGET', 'squall:since', part)
  if since and tonumber(generation) < tonumber(since) then
    return 'BEFORE ' .. part
  end
end

-- The move that begins at LO, if NUMBER is that of the course and it has that role.
local function own_move(args, role)
  local course = known()
  if args[1] ~= course.number then
    return nil, refuse('COURSE ' .. course.number)
  end
  local move = move_at(course, args[2])
  if not move or move.lo ~= args[2] or move.role ~= role then
    return nil, refuse('STRANGER')
  end
  local late = before(args[4], args[5])
  return not late and move, late and refuse(late)
end

-- What was pulled below a rank is like all else of the move from now on. A source may have back what it has not forgotten, so
-- it keeps what it knows up to there.
local function pass(move, edge)
  local pulled = known().pulled
  for rank, state in pairs(pulled) do
    if move.lo <= rank and rank < edge then
      redis.call('HDEL', 'squall:pulled', rank)
      pulled[rank] = nil
      local rows = string.match(state, '^forgotten:(%d+)$')
      if rows then
        redis.call('HINCRBY', 'squall:gone', move.lo, rows)
      end
    end
  end
end

-- Whether it rises.
local function raise(move, name, key, edge)
  if edge <= move[name] then
    return false
  end
  local deed = name == 'forgot' and 'forget' or move.role == 'out' and 'give' or 'load'
  write_down(deed, known().number, move[name], edge, move.peer)
  redis.call('HSET', key, move.lo, edge)
  move[name] = edge
  if name == 'forgot' or move.role == 'in' then
    pass(move, edge)
  end
  return true
end

-- A step of NUMBER LO EDGE [PART GENERATION]: where the edge is now, and the generation if one was given, which is
-- that of the other end when it did the step before.
local function step(args, move, name, key, has_changed)
  if raise(move, name, key, args[3]) or has_changed then
    grow()
  end
  if not args[5] then
    return redis.status_reply(move[name])
  end
  see(args, 4)
  return redis.status_reply(move[name] .. ' ' .. (redis.call('GET', 'squall:generation') or '0'))
end
