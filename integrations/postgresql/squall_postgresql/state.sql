-- What a partition keeps, and the roles that may read and change it. It may be run again.
do $$
begin
  create role squall_mover nologin bypassrls;
exception when duplicate_object or unique_violation then null;
end
$$;
do $$
begin
  create role squall_app nologin;
exception when duplicate_object or unique_violation then null;
end
$$;

create schema if not exists squall authorization squall_mover;
grant usage on schema squall to squall_app;
create schema if not exists squall_rows authorization squall_mover;

-- All below belongs to the mover's role, and so do the rights with which the guard reads it.
set role squall_mover;

-- A place is the rank of a key less 2^63, since bigint has a sign. Places have the order of keys.
create or replace function squall.place(root bigint, second bigint) returns bigint
language sql immutable parallel safe as $$
  select ((root - 2147483648) << 32) | second
$$;

create or replace function squall.root_of(place bigint) returns bigint
language sql immutable parallel safe as $$
  select (place >> 32) + 2147483648
$$;

create or replace function squall.second_of(place bigint) returns bigint
language sql immutable parallel safe as $$
  select place & 4294967295
$$;

create or replace function squall.key_of(place bigint) returns text
language sql immutable parallel safe as $$
  select case when place = squall.place(4294967295, 0) then 'end'
    else squall.root_of(place) || ':' || squall.second_of(place) end
$$;

-- One row. It changes only if a course begins, so a transaction with one snapshot can look whether it has changed.
create table if not exists squall.state (
  is_only boolean primary key default true check (is_only),
  part integer not null,
  -- The course's number, and its plans in one form for all texts of a plan.
  number bigint not null,
  old_plan text not null,
  new_plan text not null
);

-- The keys that the new plan gives to this partition.
create table if not exists squall.legs (
  lo bigint primary key,
  hi bigint not null
);

-- All moves of the course. Below `edge` the keys were given (out) or loaded (in); below `forgot` the source has deleted
-- the rows. `slot` names the move's lock.
create table if not exists squall.moves (
  lo bigint primary key,
  hi bigint not null,
  slot integer not null,
  role text not null check (role in ('out', 'in', 'none')),
  peer integer not null,
  edge bigint not null,
  forgot bigint not null
);

-- One row: a number that each step raises, and the frame by which routers learn of the course.
create table if not exists squall.clock (
  is_only boolean primary key default true check (is_only),
  generation bigint not null,
  issue bytea
);

-- The highest generation that was seen of each other partition: who has come back with less has a lower one.
create table if not exists squall.seen (
  part integer primary key,
  generation bigint not null
);

-- The tables whose rows move.
create table if not exists squall.tables (
  name regclass primary key
);

reset role;
