-- The fence: tables that roles reach only by guarded statements. It may be run again.
set role squall_mover;

-- For what writes: refuses a statement of any role but the mover's, unless it has all keys that it has named. It is asked
-- once before each statement, also if there are no rows.
create or replace function squall.before_write() returns trigger
language plpgsql stable security definer set search_path = pg_catalog, pg_temp as $$
begin
  perform squall.may_write();
  return null;
end
$$;

-- Refuses a table that can't move.
create or replace function squall.check_table(name regclass) returns void
language plpgsql as $$
begin
  if (select count(*) from pg_attribute a where a.attrelid = name and a.attname in ('root', 'second')
      and a.atttypid = 'bigint'::regtype and a.attnotnull and not a.attisdropped) < 2 then
    perform squall.refuse(format('%s has no columns root and second of type bigint that are not null', name));
  elsif not exists (select from pg_index i where i.indrelid = name and i.indisvalid and i.indpred is null
      and (select array_agg(attname::text order by attnum = i.indkey[1]) from pg_attribute
        where attrelid = name and attnum in (i.indkey[0], i.indkey[1])) = '{root,second}') then
    perform squall.refuse(format('%s has no index that begins with root and second', name));
  end if;
end
$$;

-- Puts a table under the guard: it moves to the schema squall_rows, where only the mover reaches it, and a view takes its
-- place, which takes the same statements. The caller has to be a superuser. For a table that has new columns it is called
-- again, with the name of the view.
--
-- What reads asks the view's may_read(). It has no arguments, so the server asks it once before it looks for any row. A
-- policy of a row would not be asked of a key that has no row.
create or replace function squall.adopt(name regclass) returns void
language plpgsql as $$
declare
  relation text;
  space text;
begin
  select c.relname, n.nspname into relation, space from pg_class c join pg_namespace n on n.oid = c.relnamespace
    where c.oid = name;
  if (select relkind from pg_class where oid = name) = 'r' then
    perform squall.check_table(name);
    execute format('alter table %I.%I set schema squall_rows', space, relation);
    execute format('revoke all on squall_rows.%I from public, squall_app', relation);
    execute format('alter table squall_rows.%I owner to squall_mover', relation);
    execute format('create trigger squall_before_write before insert or update or delete or truncate on squall_rows.%I '
      'for each statement when (current_user <> ''squall_mover'') execute function squall.before_write()', relation);
    insert into squall.tables values (format('squall_rows.%I', relation)::regclass);
  end if;
  execute format('create or replace view %I.%I with (security_barrier) as select * from squall_rows.%I '
    'where squall.may_read() and squall.is_claimed(root, second) with check option', space, relation, relation);
  execute format('alter view %I.%I owner to squall_mover', space, relation);
  execute format('grant select, insert, update, delete on %I.%I to squall_app', space, relation);
end
$$;
revoke all on function squall.adopt(regclass), squall.check_table(regclass), squall.before_write() from public;

reset role;
