-- The table of frames. It may be run again.
create table if not exists squall_frames (
  id bigint generated always as identity primary key,
  frame bytea not null
);

-- Of a sealed repair, the id of the digest that it answers.
alter table squall_frames add column if not exists re text;

-- Waits until no other transaction is between its first frame and its commit. So ids rise in the order of commits: who
-- has read up to an id misses none below it.
create or replace procedure squall_turn() language sql as $$
  select pg_advisory_xact_lock('squall_frames'::regclass::oid::bigint)
$$;

-- Appends frames, and wakes readers once the transaction has committed.
drop procedure if exists squall_append(bytea[]);
create or replace procedure squall_append(frames bytea[], re text default null) language plpgsql as $$
begin
  call squall_turn();
  insert into squall_frames (frame, re) select unnest(frames), squall_append.re;
  perform pg_notify('squall_frames', '');
end
$$;
