
-- How a course begins at a partition, and how it is closed there, so that the next one may begin before it is over. It goes on
-- behind guard.lua.

-- The first move that is not over: not given and forgotten here, or not loaded.
local function unfinished(course)
  for _, move in ipairs(course.moves) do
    local is_out = move.role == 'out'
    if move.role ~= 'none' and (move.edge < move.hi or is_out and move.forgot < move.hi) then
      return move
    end
  end
end

local function is_same(course, args)
  for at, move in ipairs(course.moves) do
    if args[4 + at] ~= table.concat({ move.lo, move.hi, move.role, move.peer }, ' ') then
      return false
    end
  end
  return #args == 4 + #course.moves and redis.call('GET', 'squall:old') == args[2]
    and redis.call('GET', 'squall:new') == args[3]
end

-- The rank after another one.
local function after(rank)
  local root, second = tonumber(string.sub(rank, 1, 8), 16), tonumber(string.sub(rank, 9), 16) + 1
  if second == 4294967296 then
    root, second = root + 1, 0
  end
  return string.format('%08x%08x', root, second)
end

-- The first key of a move of which something is between its two ends, as far as this one sees.
local function under_way(course)
  for rank, state in pairs(course.pulled) do
    if state == 'given' then
      return move_at(course, rank).lo
    end
  end
  for _, move in ipairs(course.moves) do
    local is_out, arrived = move.role == 'out', 'squall:arrived'
    if is_out and move.forgot ~= move.edge
      or move.role == 'in' and redis.call('ZLEXCOUNT', arrived, '[' .. move.edge, '(' .. move.hi) > 0 then
      return move.lo
    end
  end
end

-- The ranges of a plan, and their ends among the bounds.
local function read_plan(text, bounds)
  local ranges = {}
  for hi, part in string.gmatch(text, '(%x+) (%d+)') do
    ranges[#ranges + 1] = { hi = hi, part = part }
    bounds[#bounds + 1] = hi
  end
  return ranges
end

-- Whether this partition, of that number, holds a key. RANGE is that of the old plan.
local function holds(course, part, range, rank)
  local move = move_at(course, rank)
  if not move then
    return range ~= nil and range.part == part
  end
  local has_passed = rank < move.edge or course.pulled[rank] ~= nil
  return move.role == 'out' and not has_passed or move.role == 'in' and has_passed
end

-- The first key that a plan gives this partition and that it does not hold, or the other way round.
local function first_other(course, part, plan)
  local bounds = { '0000000000000000' }
  local old, left = read_plan(redis.call('GET', 'squall:old'), bounds), read_plan(plan, bounds)
  for _, move in ipairs(course.moves) do
    bounds[#bounds + 1], bounds[#bounds + 2], bounds[#bounds + 3] = move.lo, move.edge, move.hi
  end
  for rank in pairs(course.pulled) do
    bounds[#bounds + 1], bounds[#bounds + 2] = rank, after(rank)
  end
  table.sort(bounds)
  local at_old, at_left = 1, 1
  for _, lo in ipairs(bounds) do
    while old[at_old] and old[at_old].hi <= lo do
      at_old = at_old + 1
    end
    while left[at_left] and left[at_left].hi <= lo do
      at_left = at_left + 1
    end
    local range = left[at_left]
    if holds(course, part, old[at_old], lo) ~= (range ~= nil and range.part == part) then
      return lo
    end
  end
end

-- Why a course may not begin here from where the keys are: WORD is left:PART[:OTHER=GENERATION].. with the number of this
-- partition, and what the others had done when they were asked.
local function fault_of_left(course, args)
  local part, others = string.match(args[4], '^left:(%d+)([%d:=]*)$')
  for other, generation in string.gmatch(others, ':(%d+)=(%d+)') do
    local late = before(other, generation)
    if late then
      return late
    end
  end
  local lo = under_way(course)
  if not course.is_closed then
    return 'OPEN ' .. course.number
  elseif lo then
    return 'RUNNING ' .. course.number .. ' ' .. lo
  end
  lo = first_other(course, part, args[2])
  return lo and 'EDGE ' .. course.number .. ' ' .. lo
end

-- Why a course may not begin here.
local function fault(course, args)
  local number, known_number = tonumber(args[1]), tonumber(course.number)
  local move, is_left = unfinished(course), string.match(args[4], '^left:')
  if number < known_number then
    return 'LATE ' .. course.number
  elseif move and not is_left then
    return 'RUNNING ' .. course.number .. ' ' .. move.lo
  elseif string.match(args[4], '^fresh') then
    return nil
  elseif known_number == 0 then
    return 'EMPTY'
  elseif number > known_number + 1 then
    return 'GAP ' .. course.number
  elseif is_left then
    return fault_of_left(course, args)
  elseif redis.call('GET', 'squall:new') ~= args[2] then
    return 'OTHER ' .. course.number
  end
end

-- The same arguments as squall_begin has: whether it would begin, or why not.
redis.register_function({
  function_name = 'squall_may_begin',
  flags = { 'no-writes', 'allow-oom' },
  callback = function(_, args)
    local course = known()
    if args[1] == course.number then
      return is_same(course, args) and redis.status_reply('again') or refuse('CLASH ' .. course.number)
    end
    local why = fault(course, args)
    return why and refuse(why) or redis.status_reply('fresh')
  end,
})

-- Begins it: the same arguments as squall_begin has.
local function begin(args)
  kept = nil
  redis.call('DEL', 'squall:moves', 'squall:edge', 'squall:forgot', 'squall:gone', 'squall:put', 'squall:back',
    'squall:pulled', 'squall:closed')
  redis.call('UNLINK', 'squall:arrived')
  write_down('begin', args[1], args[2], 'to', args[3])
  redis.call('MSET', 'squall:number', args[1], 'squall:old', args[2], 'squall:new', args[3])
  for at = 5, #args do
    redis.call('RPUSH', 'squall:moves', args[at])
  end
end

-- NUMBER OLD NEW fresh|fresh:SEEN|known|left:.. MOVE..: begins a course. One that has begun stays as it is. A partition
-- that the old plan does not name has no keys, and may be fresh. SEEN is what others have seen of one that was there
-- before: its generation rises above that. With left the course before is closed, and OLD is where the keys are. The
-- answer ends with the generation.
redis.register_function('squall_begin', function(_, args)
  local course = known()
  if args[1] == course.number then
    local generation = redis.call('GET', 'squall:generation') or '0'
    local again = redis.status_reply('again ' .. generation)
    return is_same(course, args) and again or refuse('CLASH ' .. course.number)
  end
  local why = fault(course, args)
  if why then
    return refuse(why)
  end
  begin(args)
  for part, generation in string.gmatch(args[4], ':(%d+)=(%d+)') do
    see({ part, generation }, 1)
  end
  return redis.status_reply('begun ' .. grow(string.match(args[4], '^fresh:(%d+)$')))
end)

-- NUMBER: from now on it gives nothing more in that course.
redis.register_function({
  function_name = 'squall_close',
  flags = { 'allow-oom' },
  callback = function(_, args)
    local course = known()
    if args[1] ~= course.number then
      return refuse('COURSE ' .. course.number)
    elseif not course.is_closed then
      redis.call('SET', 'squall:closed', args[1])
      write_down('close', args[1])
      course.is_closed = true
      grow()
    end
    return redis.status_reply('closed')
  end,
})
