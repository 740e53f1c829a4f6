-- The steps of a course at a partition, for the mover. Each may be repeated. It may be run again.
--
-- SQ002: a step is refused. The message is one of the refusals of PROTOCOL.md.
set role squall_mover;

create or replace function squall.refuse(said text) returns void
language plpgsql immutable as $$
begin
  raise exception using errcode = 'SQ002', message = said;
end
$$;

-- Raises the generation if a step has changed something: what it is now.
create or replace function squall.tick(has_changed boolean) returns bigint
language sql volatile as $$
  update squall.clock set generation = generation + has_changed::integer returning generation
$$;

-- Notes a generation of another partition.
create or replace function squall.see(other integer, its bigint) returns void
language sql volatile as $$
  insert into squall.seen values (other, its)
    on conflict (part) do update set generation = excluded.generation where excluded.generation > seen.generation
$$;

-- Why a course may not begin here, or null. `again` if it has begun.
create or replace function squall.begin_fault(
  its_part integer, its_number bigint, its_old text, its_new text, is_fresh boolean
) returns text
language plpgsql stable as $$
declare
  now squall.state;
  move squall.moves;
begin
  select * into now from squall.state;
  select * into move from squall.moves m
    where m.role <> 'none' and (m.edge < m.hi or m.role = 'out' and m.forgot < m.hi) order by m.lo limit 1;
  return case
    when now is null then case when not is_fresh then 'EMPTY' end
    when now.part <> its_part then 'STRANGER ' || now.part
    when its_number = now.number then
      case when now.old_plan = its_old and now.new_plan = its_new then 'again' else 'CLASH ' || now.number end
    when its_number < now.number then 'LATE ' || now.number
    when move.lo is not null then 'RUNNING ' || now.number || ' ' || squall.key_of(move.lo)
    when is_fresh then null
    when its_number > now.number + 1 then 'GAP ' || now.number
    when now.new_plan <> its_old then 'OTHER ' || now.number
  end;
end
$$;

-- Begins a course: its plans, the partition's own ranges of the new one [[LO, HI] ..], and the moves
-- [[LO, HI, ROLE, PEER] ..], in places. It waits for statements in flight that write. The answer is the generation.
create or replace function squall.begin(
  its_part integer, its_number bigint, its_old text, its_new text, is_fresh boolean, ranges jsonb, its_moves jsonb
) returns bigint
language plpgsql volatile as $$
declare
  said text;
begin
  perform pg_advisory_xact_lock(squall.locks(), 0);
  said := squall.begin_fault(its_part, its_number, its_old, its_new, is_fresh);
  if said = 'again' then
    return squall.tick(false);
  elsif said is not null then
    perform squall.refuse(said);
  end if;
  insert into squall.state values (true, its_part, its_number, its_old, its_new)
    on conflict (is_only) do update
      set number = excluded.number, old_plan = excluded.old_plan, new_plan = excluded.new_plan;
  delete from squall.legs;
  insert into squall.legs select (it->>0)::bigint, (it->>1)::bigint from jsonb_array_elements(ranges) it;
  delete from squall.moves;
  insert into squall.moves
    select (it->>0)::bigint, (it->>1)::bigint, at, it->>2, (it->>3)::integer, (it->>0)::bigint, (it->>0)::bigint
    from jsonb_array_elements(its_moves) with ordinality as of_them (it, at);
  insert into squall.clock values (true, 0, null) on conflict do nothing;
  return squall.tick(true);
end
$$;

-- The move that begins at a place, if the course has that number and the move that role here.
create or replace function squall.own_move(its_number bigint, its_lo bigint, its_role text) returns squall.moves
language plpgsql volatile as $$
declare
  move squall.moves;
begin
  perform pg_advisory_xact_lock_shared(squall.locks(), 0);
  if its_number is distinct from (select number from squall.state) then
    perform squall.refuse('COURSE ' || coalesce((select number from squall.state), 0));
  end if;
  select * into move from squall.moves m where m.lo = its_lo and m.role = its_role;
  if not found then
    perform squall.refuse('STRANGER');
  end if;
  return move;
end
$$;

-- Where the next chunk of about so many rows ends. All rows of a key are in one chunk.
create or replace function squall.chunk_end(its_number bigint, its_lo bigint, size bigint) returns bigint
language plpgsql volatile as $$
declare
  move squall.moves := squall.own_move(its_number, its_lo, 'out');
  name regclass;
  found_end bigint;
  edge bigint := move.hi;
begin
  for name in select t.name from squall.tables t loop
    execute format('select squall.place(root, second) from %s where (root, second) >= ($1, $2) and (root, second) < ($3, $4) '
      'order by root, second offset $5 limit 1', name) into found_end
      using squall.root_of(move.edge), squall.second_of(move.edge), squall.root_of(edge), squall.second_of(edge), size;
    if found_end is not null then
      edge := greatest(found_end, move.edge + 1);
    end if;
  end loop;
  return edge;
end
$$;

-- Waits for all statements in flight that may write a key of the move, and keeps others back until the transaction ends.
create or replace function squall.exclude(its_slot integer) returns void
language sql volatile as $$
  select pg_advisory_xact_lock(squall.locks(), its_slot)
$$;

-- Gives the keys of the move below the edge: from then on no statement here reads or writes them.
create or replace function squall.give(its_number bigint, its_lo bigint, its_edge bigint, out edge bigint, out generation bigint)
language plpgsql volatile as $$
declare
  move squall.moves := squall.own_move(its_number, its_lo, 'out');
begin
  perform squall.exclude(move.slot);
  update squall.moves m set edge = its_edge where m.lo = its_lo and m.edge < its_edge and its_edge <= m.hi;
  generation := squall.tick(found);
  select m.edge into edge from squall.moves m where m.lo = its_lo;
end
$$;

-- Begins to load a chunk, which has to begin at this edge: whether it does. Other movers wait until the transaction ends.
-- Rows that the tables have of the chunk are deleted: they are nobody's.
create or replace function squall.open_load(its_number bigint, its_lo bigint, its_begin bigint, its_edge bigint)
returns boolean
language plpgsql volatile as $$
declare
  move squall.moves := squall.own_move(its_number, its_lo, 'in');
begin
  select * into move from squall.moves m where m.lo = its_lo for update;
  if move.edge <> its_begin then
    return false;
  end if;
  perform squall.delete_rows(its_begin, its_edge);
  return true;
end
$$;

-- Loads the keys of the move below the edge, in the transaction that has put their rows in place. The source had given
-- them in that generation.
create or replace function squall.load(
  its_number bigint, its_lo bigint, its_edge bigint, given bigint, out edge bigint, out generation bigint
)
language plpgsql volatile as $$
declare
  move squall.moves := squall.own_move(its_number, its_lo, 'in');
begin
  update squall.moves m set edge = its_edge where m.lo = its_lo and m.edge < its_edge and its_edge <= m.hi;
  generation := squall.tick(found);
  perform squall.see(move.peer, given);
  select m.edge into edge from squall.moves m where m.lo = its_lo;
end
$$;

-- Deletes the rows of keys from a place on, below another one.
create or replace function squall.delete_rows(its_lo bigint, its_hi bigint) returns void
language plpgsql volatile as $$
declare
  name regclass;
begin
  for name in select t.name from squall.tables t loop
    execute format('delete from %s where (root, second) >= ($1, $2) and (root, second) < ($3, $4)', name)
      using squall.root_of(its_lo), squall.second_of(its_lo), squall.root_of(its_hi), squall.second_of(its_hi);
  end loop;
end
$$;

-- Deletes the rows of the keys below the edge, which were given, and which the destination has loaded in that generation.
create or replace function squall.forget(
  its_number bigint, its_lo bigint, its_edge bigint, loaded bigint, out edge bigint, out generation bigint
)
language plpgsql volatile as $$
declare
  move squall.moves := squall.own_move(its_number, its_lo, 'out');
begin
  select * into move from squall.moves m where m.lo = its_lo for update;
  if its_edge > move.edge then
    perform squall.refuse('STRANGER');
  elsif its_edge > move.forgot then
    perform squall.delete_rows(move.forgot, its_edge);
    update squall.moves m set forgot = its_edge where m.lo = its_lo;
  end if;
  edge := greatest(its_edge, move.forgot);
  generation := squall.tick(its_edge > move.forgot);
  perform squall.see(move.peer, loaded);
end
$$;

-- Stores the frame by which routers learn of the course, for those that hear nothing from the bus.
create or replace function squall.tell(its_number bigint, frame bytea) returns void
language sql volatile as $$
  update squall.clock set issue = frame where its_number = (select number from squall.state)
$$;

-- How far the moves are, for people.
create or replace view squall.progress as
  select s.number as course, s.part, squall.key_of(m.lo) as lo, squall.key_of(m.hi) as hi, m.role, m.peer,
    squall.key_of(m.edge) as edge, squall.key_of(m.forgot) as forgot
  from squall.moves m, squall.state s order by m.lo;

-- For routers that hear nothing from the bus: the number, the issue, and what was loaded here.
create or replace function squall.news(out number bigint, out issue bytea, out lo bigint, out edge bigint)
returns setof record
language sql stable security definer set search_path = pg_catalog, pg_temp as $$
  select s.number, c.issue, m.lo, m.edge
  from squall.state s cross join squall.clock c left join squall.moves m on m.role = 'in' and m.edge > m.lo
$$;

-- The number of this partition, for programs.
create or replace function squall.part() returns integer
language sql stable security definer set search_path = pg_catalog, pg_temp as $$
  select part from squall.state
$$;

revoke all on all functions in schema squall from public;
grant execute on function squall.news(), squall.part() to squall_app;

reset role;
