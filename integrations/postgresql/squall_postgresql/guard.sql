-- The guard: whether a statement's keys are here, in the transaction of the statement. It may be run again.
--
-- SQ001: the partition does not have the key. The message is one of the replies of PROTOCOL.md.
-- SQ003: the statement named no key.
set role squall_mover;

-- Where a key is, by the snapshot of the statement that asks: `HELD N`, or what the guard replies.
create or replace function squall.look(place bigint) returns text
language plpgsql stable as $$
begin
  return coalesce((
    select case
      when m.role = 'none' then 'ELSEWHERE ' || m.peer
      when m.role = 'out' and place < m.edge then 'MOVED ' || m.peer || ' ' || s.number
      when m.role = 'in' and place >= m.edge then 'PENDING ' || m.peer
      when m.role is not null or l.lo is not null then 'HELD ' || s.number
      -- The key is not this partition's: who asks knows an earlier course, or a later one.
      else 'COURSE ' || s.number
    end
    from squall.state s
    left join lateral (select * from squall.moves it where it.lo <= place order by it.lo desc limit 1) m on place < m.hi
    left join lateral (select * from squall.legs it where it.lo <= place order by it.lo desc limit 1) l on place < l.hi
  ), 'COURSE 0');
end
$$;

-- The number of all locks of this partition. Lock 0 is that of the course, and each other one that of a move.
create or replace function squall.locks() returns integer
language sql immutable parallel safe as $$
  select 1936810348
$$;

-- The same by a snapshot that is taken after the locks: until the transaction ends, the key is not given away. A lock of
-- the server's lock table is fair: a give that waits is before later statements. A lock of a row would not be.
create or replace function squall.look_locked(place bigint) returns text
language plpgsql volatile as $$
declare
  move squall.moves;
begin
  -- No course begins meanwhile, so a move keeps its lock.
  perform pg_advisory_xact_lock_shared(squall.locks(), 0);
  select * into move from squall.moves m where m.lo <= place order by m.lo desc limit 1;
  if move.role = 'out' and place < move.hi then
    perform pg_advisory_xact_lock_shared(squall.locks(), move.slot);
  end if;
  if current_setting('transaction_isolation') <> 'read committed' then
    -- The snapshot is that of the whole transaction. A lock of a row that has changed since then is an error.
    perform from squall.state for share;
    perform from squall.moves m where m.lo = move.lo for share;
  end if;
  return squall.look(place);
end
$$;

-- Refuses, unless the key is held.
create or replace function squall.insist(place bigint, said text) returns void
language plpgsql immutable as $$
begin
  if said not like 'HELD %' then
    raise exception using errcode = 'SQ001', message = said, detail = 'key ' || squall.key_of(place);
  end if;
end
$$;

-- The keys that the transaction has named. They are no proof of anything: each statement is guarded by itself.
create or replace function squall.claims() returns bigint[]
language plpgsql stable as $$
declare
  named text := current_setting('squall.claim', true);
begin
  if named is null or named = '' then
    raise exception using errcode = 'SQ003', message = 'UNGUARDED',
      hint = 'call squall.guard(root, second, mode) before, in the same transaction';
  end if;
  return string_to_array(named, ' ')::bigint[];
end
$$;

-- The place of a key.
create or replace function squall.checked(root bigint, second bigint) returns bigint
language plpgsql immutable as $$
begin
  if root not between 0 and 4294967294 or second not between 0 and 4294967295 then
    raise exception '%:% is no key', root, second;
  end if;
  return squall.place(root, second);
end
$$;

-- Names a key of the statements that follow in this transaction, each of which is guarded by itself.
create or replace function squall.name_key(root bigint, second bigint) returns void
language plpgsql volatile as $$
declare
  named text := current_setting('squall.claim', true);
begin
  perform set_config('squall.claim', concat_ws(' ', nullif(named, ''), squall.checked(root, second)), true);
end
$$;

-- The same, and refuses at once if the key is not here. The mode is `read`, or `write`: then the key stays here until the
-- transaction ends.
create or replace function squall.guard(root bigint, second bigint, mode text) returns void
language plpgsql volatile security definer set search_path = pg_catalog, pg_temp as $$
declare
  place bigint := squall.checked(root, second);
begin
  if mode = 'write' then
    perform squall.insist(place, squall.look_locked(place));
  elsif mode = 'read' then
    perform squall.insist(place, squall.look(place));
  else
    raise exception 'the mode is read or write, and not %', mode;
  end if;
  perform squall.name_key(root, second);
end
$$;

-- Whether a row is of a key that the transaction has named.
create or replace function squall.is_claimed(root bigint, second bigint) returns boolean
language sql stable as $$
  select squall.place(root, second)::text = any(string_to_array(current_setting('squall.claim', true), ' '))
$$;

-- Refuses a statement that reads, unless its snapshot has all keys. What it reads was so while they were here, so it needs
-- no lock.
create or replace function squall.may_read() returns boolean
language plpgsql stable security definer set search_path = pg_catalog, pg_temp as $$
declare
  place bigint;
begin
  foreach place in array squall.claims() loop
    perform squall.insist(place, squall.look(place));
  end loop;
  return true;
end
$$;

-- Refuses a statement that writes, unless it has all keys, and keeps them here until the transaction ends.
create or replace function squall.may_write() returns boolean
language plpgsql stable as $$
declare
  place bigint;
  said text;
begin
  foreach place in array squall.claims() loop
    said := squall.look_locked(place);
    perform squall.insist(place, said);
    if squall.look(place) is distinct from said then
      -- The statement's snapshot is from before the key was loaded: it may lack its rows. The next statement has them.
      raise exception using errcode = 'SQ001', message = 'AGAIN', detail = 'key ' || squall.key_of(place);
    end if;
  end loop;
  return true;
end
$$;

revoke all on all functions in schema squall from public;
grant execute on function squall.guard(bigint, bigint, text), squall.name_key(bigint, bigint), squall.checked(bigint, bigint),
  squall.may_read(), squall.is_claimed(bigint, bigint), squall.place(bigint, bigint) to squall_app;

reset role;
