-- Prints the case text of one table of a running PostgreSQL server.
--
-- How to use it:
--
--     psql -XqAt -d DATABASE -v tab=SCHEMA.TABLE -f tools/case_from_psql.sql > t.toml
--
-- The text is a case file (docs/CASE-FILE.md) in which five numbers of the
-- cluster are still placeholders, as @NextXID@. They are known only once the
-- server is stopped; tools/fill_case puts them in then.
--
-- The names of files are relative to the data folder, so the checker is run
-- with the data folder as its working folder.
--
-- What a case can't say is left out, and a comment in the text gives the
-- reason: an index that isn't a B-tree, that is partial or on an expression,
-- that has more columns than a case lists or more blocks than the checker reads,
-- a key type or a collation that the checker doesn't order; and a missing value
-- whose stored bytes can't be told from SQL. Such a value is read as null.
--
-- With `-v unique=on` a unique index is called so, and then no key may be there
-- twice. That takes up to twice as long, so it isn't done without being asked for.
--
-- It needs no extension and no special right, and it changes nothing. Where a
-- case can't describe the table it prints nothing, gives the reason on standard
-- error, and ends with status 3. Tables and indexes that another session keeps
-- for itself are waited for, 60 seconds or what `-v lock_timeout=` says, and left
-- out then. Only names, sizes and missing values are read,
-- and no rows, so any state of the table will do; but a command that rewrites
-- the table or changes its columns or indexes (VACUUM FULL, CLUSTER, TRUNCATE,
-- REINDEX, ALTER TABLE) makes the text out of date.
--
-- tools/cases_from_server runs it with `every` in place of `tab`, for all tables
-- of the database: with `-v every=tables` for those that users made and for
-- large objects, with `-v every=catalogs` for the server's own too. It then
-- prints records of four fields, each field and each record ended as psql is
-- told to: what it is, a name, a text, and the files, each with its blocks.
--
--     case             the name of a file, SCHEMA.TABLE.toml    the case text
--     table            a table that has no case                 the reason, the files
--     no file          a table that has no file                 the reason
--     index            an index that no case lists              the reason, the file
--     missing value    one that its case leaves out             the reason
--     end              the database                             how many records came before this one
--
-- In the names of files each byte of a name of SQL but the letters and digits of
-- ASCII, _ and - is written as % and two hexadecimal digits of upper case. Where
-- that is too long for a file system, both names are cut, and the table's oid
-- follows as a third part.

\set ON_ERROR_STOP on
\set VERBOSITY terse
\set SHOW_CONTEXT never

\if :{?tab}
    \set is_one true
    \set every none
\else
    \set is_one false
    \set tab none
    \if :{?every}
    \else
do $$ begin raise exception 'name the table, as -v tab=SCHEMA.TABLE'; end $$;
    \endif
\endif

-- Names of a database without an encoding are any bytes.
select case when pg_catalog.getdatabaseencoding() = 'SQL_ASCII' then 'SQL_ASCII' else 'UTF8' end as encoding_of_names
\gset
\encoding :encoding_of_names

do $$
begin
    if current_setting('block_size') <> '8192' then
        raise exception 'the blocks of this server have % bytes, and only 8192 will do', current_setting('block_size');
    end if;
end
$$;

-- A name that no relation has ends the script here.
\if :is_one
select :'tab'::pg_catalog.regclass::pg_catalog.oid as table_oid
\gset
\else
    \set table_oid 0
\endif

-- From here on all names are those of the server itself.
set search_path = '';
set default_transaction_read_only = on;
set statement_timeout = 0;
set standard_conforming_strings = on;
set jit = off;

-- A table that another session keeps for itself is waited for, but not for ever:
-- the size of its files can't be asked meanwhile.
\if :{?lock_timeout}
\else
    \set lock_timeout '60s'
\endif
\if :{?unique}
\else
    \set unique off
\endif
select set_config('kamzudrev.lock_timeout', :'lock_timeout', false) as waited,
    set_config('kamzudrev.table_oid', :'table_oid', false) as for_table
\gset
do $$
declare
    until timestamptz := clock_timestamp() + current_setting('kamzudrev.lock_timeout')::interval;
begin
    while clock_timestamp() < until and exists (
        select
        from pg_locks
        join pg_class as class
            on class.oid = pg_locks.relation and class.relpersistence <> 't' and class.relkind in ('r', 'm', 't', 'i')
        left join pg_index as index on index.indexrelid = class.oid
        left join pg_class as owner on owner.reltoastrelid = class.oid
        where pg_locks.locktype = 'relation'
            and pg_locks.mode = 'AccessExclusiveLock'
            and pg_locks.pid is distinct from pg_backend_pid()
            and pg_locks.database in (0, (select oid from pg_database where datname = current_database()))
            and current_setting('kamzudrev.table_oid')::oid in (0, class.oid, index.indrelid, owner.oid)
    ) loop
        perform pg_sleep(0.1);
    end loop;
end
$$;
-- For the moment between the two.
set lock_timeout = '60s';

-- The collations C.UTF-8 of the operating system are in the order of bytes in most systems, and weren't in some. Where
-- an index has one, the server sorts 10,000 texts by it, and those whose order is that of bytes are kept.
do $$
declare
    found_collation record;
    is_ordered bool;
    kept oid[] = '{}';
begin
    for found_collation in
        select used.oid, format('%I.%I', namespace.nspname, used.collname) as name
        from pg_collation as used
        join pg_namespace as namespace on namespace.oid = used.collnamespace
        join pg_database as database on database.datname = current_database()
        where used.oid in (select unnest(indcollation::oid[]) from pg_index)
            and getdatabaseencoding() = 'UTF8'
            and case
                when used.collprovider = 'd'
                then coalesce(to_jsonb(database) ->> 'datlocprovider', 'c') = 'c'
                    and database.datcollate ~* '^c\.utf-?8$'
                else used.collprovider = 'c' and used.collcollate ~* '^c\.utf-?8$'
            end
    loop
        execute format($query$
            select bool_and(bytes >= before)
            from (
                select bytes, lag(bytes) over (order by word collate %s) as before
                from (
                    select word, convert_to(word, 'UTF8') as bytes
                    from generate_series(1, 10000) as i
                    cross join lateral (
                        select string_agg(chr((case
                            when i %% 3 = 0 then 32 + number %% 95
                            when i %% 3 = 1 then 32 + number %% 50000
                            when number %% 1114080 between 55264 and 57311 then 65
                            else 32 + number %% 1114080
                        end)::int4), '' order by j) as word
                        from generate_series(1, 1 + i %% 6) as j
                        cross join lateral (select hashint4(i * 10 + j)::int8 + 2147483648 as number) as hashed
                    ) as words
                ) as texts
            ) as sorted$query$, found_collation.name) into is_ordered;
        if is_ordered then
            kept := kept || found_collation.oid;
        end if;
    end loop;
    perform set_config('kamzudrev.byte_order', kept::text, false);
end
$$;

with recursive

-- What another session keeps for itself, or waits for.
locked (relation) as materialized (
    select distinct relation
    from pg_locks
    where locktype = 'relation'
        and mode = 'AccessExclusiveLock'
        and pid is distinct from pg_backend_pid()
        and database in (0, (select oid from pg_database where datname = current_database()))
),

-- The tables that are asked for. Of the server's own, large objects are always
-- among them where there are any: their rows are what users stored.
asked as (
    select
        class.*,
        namespace.nspname::text as schema_name,
        class.relname::text as table_name,
        lock.is_locked,
        pg_relation_filepath(class.oid) as heap_path,
        case when not lock.is_locked then pg_relation_size(class.oid) / 8192 end as heap_blocks,
        nullif(class.reltoastrelid, 0) as toast_oid,
        pg_relation_filepath(nullif(class.reltoastrelid, 0)) as toast_path,
        case when not lock.is_locked then pg_relation_size(nullif(class.reltoastrelid, 0)) / 8192 end as toast_blocks
    from pg_class as class
    join pg_namespace as namespace on namespace.oid = class.relnamespace
    cross join lateral (
        select class.relpersistence = 't' or class.oid in (select relation from locked)
            or class.reltoastrelid in (select relation from locked) as is_locked
    ) as lock
    where case
        when :'is_one' then class.oid = :'table_oid'::oid
        when class.relkind not in ('r', 'm', 'p', 'f') then false
        when namespace.nspname not in ('pg_catalog', 'information_schema') or :'every' = 'catalogs' then true
        else class.oid in ('pg_largeobject'::regclass, 'pg_largeobject_metadata'::regclass)
            and pg_relation_size(class.oid) > 0
    end
),

attributes as (
    select attribute.*, attribute.attname::text as column_name
    from pg_attribute as attribute
    join asked on attribute.attrelid = asked.oid
    where attribute.attnum > 0
),

column_counts as (
    select
        attrelid as table_oid,
        count(*) as column_count,
        min(attnum) filter (where attlen < -1 or attlen > 8000) as odd_attnum
    from attributes
    group by attrelid
),

-- Why no case can describe a table; null where one can.
tables as (
    select
        asked.*,
        case
            when asked.relkind = 'v'
            then 'it is a view, which has no file'
            when asked.relkind = 'p'
            then 'it is a partitioned table, which has no file; '
                'each of its partitions is a table and has a case of its own'
            when asked.relkind = 'f'
            then 'it is a foreign table, which has no file here'
            when asked.relkind in ('i', 'I')
            then 'it is an index; name its table, whose case lists it'
            when asked.relkind not in ('r', 'm', 't')
            then 'it is no table'
            when access_method.amname is distinct from 'heap'
            then format('its access method is %s, and only heap will do', coalesce(access_method.amname, 'not known'))
            when asked.relpersistence = 't'
            then 'it is a temporary table, which is gone once the server is stopped'
            when asked.heap_path is null
            then 'it has no file'
            when asked.is_locked
            then format('another session keeps it for itself, for longer than %s', :'lock_timeout')
            when column_counts.column_count is null
            then 'it has no column, and a case lists at least one'
            when column_counts.column_count > 64
            then format(
                'it has %s columns, dropped ones among them, and a case lists 64 at most', column_counts.column_count
            )
            when column_counts.odd_attnum is not null
            then format(
                'its column %s is of a type that no case can list: its length (attlen) is %s',
                to_json(odd_column.column_name), odd_column.attlen
            )
            when asked.heap_blocks > 4194304
            then format('its heap has %s blocks, and the checker reads 4194304 at most (32 GiB)', asked.heap_blocks)
            when asked.toast_blocks > 1048576
            then format(
                'its TOAST table has %s blocks, and the checker reads 1048576 at most (8 GiB)', asked.toast_blocks
            )
        end as reason
    from asked
    left join pg_am as access_method on access_method.oid = asked.relam
    left join column_counts on column_counts.table_oid = asked.oid
    left join attributes as odd_column
        on odd_column.attrelid = asked.oid and odd_column.attnum = column_counts.odd_attnum
),

described as (
    select * from tables where reason is null
),

-- Tables that have no case and have files all the same.
left_tables as (
    select * from tables
    where reason is not null and relkind in ('r', 'm') and relpersistence <> 't' and heap_path is not null
),

-- A column of a domain is stored as the type below it, which can be a domain too.
domain_steps (top_oid, type_oid, depth) as (
    select oid, oid, 0
    from pg_type
    union all
    select domain_steps.top_oid, domain.typbasetype, domain_steps.depth + 1
    from domain_steps
    join pg_type as domain on domain.oid = domain_steps.type_oid and domain.typtype = 'd'
),

base_types as (
    select distinct on (domain_steps.top_oid)
        domain_steps.top_oid,
        domain_steps.type_oid,
        base.typname::text as type_name,
        base.typtype = 'e' as is_enum,
        case when base.typnamespace = 'pg_catalog'::regnamespace then base.typname::text end as server_type,
        send.proname::text as send_name
    from domain_steps
    join pg_type as base on base.oid = domain_steps.type_oid
    left join pg_proc as send on send.oid = base.typsend and send.pronamespace = 'pg_catalog'::regnamespace
    order by domain_steps.top_oid, domain_steps.depth desc
),

-- All attributes in their order. A dropped one keeps its length and alignment,
-- has no type any more, and is listed by its storage.
columns as (
    select
        described.oid as table_oid,
        attributes.attnum,
        attributes.column_name,
        attributes.attlen as stored_length,
        case attributes.attalign when 'c' then 1 when 's' then 2 when 'i' then 4 else 8 end as alignment,
        base_types.type_oid,
        base_types.type_name,
        base_types.is_enum,
        base_types.server_type,
        base_types.send_name,
        case
            when attributes.attisdropped then null
            when base_types.type_oid in (
                'bool'::regtype, 'int2'::regtype, 'int4'::regtype, 'int8'::regtype, 'uuid'::regtype, 'text'::regtype,
                'bytea'::regtype, 'oid'::regtype, 'date'::regtype, 'timestamp'::regtype, 'timestamptz'::regtype
            ) then base_types.type_name
            when base_types.type_oid = 'varchar'::regtype then 'text'
            -- These are stored and ordered as integers.
            when base_types.type_oid in ('time'::regtype, 'money'::regtype) then 'int8'
        end as key_type,
        attributes.atthasmissing and not attributes.attisdropped as has_missing,
        attributes.attmissingval as missing_array
    from described
    join attributes on attributes.attrelid = described.oid
    left join base_types on base_types.top_oid = attributes.atttypid
),

-- The types whose values are stored as one number after the other, each with its
-- lowest byte first, by the function that sends them. Sending gives the same
-- numbers, each with its highest byte first: here are their widths. What comes
-- after them is stored as it is sent.
sent_numbers (send_name, widths) as (
    values
        ('boolsend', array[1]), ('charsend', array[1]), ('byteasend', array[]::int4[]),
        ('int2send', array[2]), ('int4send', array[4]), ('int8send', array[8]), ('cash_send', array[8]),
        ('float4send', array[4]), ('float8send', array[8]),
        ('oidsend', array[4]), ('xidsend', array[4]), ('cidsend', array[4]), ('xid8send', array[8]),
        ('regclasssend', array[4]), ('regtypesend', array[4]), ('regprocsend', array[4]),
        ('regproceduresend', array[4]), ('regopersend', array[4]), ('regoperatorsend', array[4]),
        ('regrolesend', array[4]), ('regnamespacesend', array[4]), ('regcollationsend', array[4]),
        ('regconfigsend', array[4]), ('regdictionarysend', array[4]),
        ('date_send', array[4]), ('time_send', array[8]), ('timetz_send', array[8, 4]),
        ('timestamp_send', array[8]), ('timestamptz_send', array[8]), ('interval_send', array[8, 4, 4]),
        ('uuid_send', array[]::int4[]), ('macaddr_send', array[]::int4[]), ('macaddr8_send', array[]::int4[]),
        ('pg_lsn_send', array[8]), ('tidsend', array[2, 2, 2]),
        ('point_send', array[8, 8]), ('lseg_send', array[8, 8, 8, 8]), ('box_send', array[8, 8, 8, 8]),
        ('line_send', array[8, 8, 8]), ('circle_send', array[8, 8, 8]),
        ('bit_send', array[4]), ('varbit_send', array[4])
),

-- The missing values, which rows from before their columns have. Each stands in
-- the catalog as an array of one element, of any type. What an array sends is 24
-- bytes and then what its element sends; sending hangs on no setting. A text is
-- sent in the client's encoding, and is stored in the database's. An enum is
-- stored as the oid of its label.
missing_values as (
    select
        table_oid,
        attnum,
        type_oid,
        is_enum,
        server_type,
        send_name,
        case
            when is_enum or server_type in ('text', 'varchar', 'bpchar', 'json', 'name')
            then (missing_array::text::text[])[1]
        end as missing_text,
        case
            when not is_enum and (
                send_name in (select sent_numbers.send_name from sent_numbers)
                or send_name in ('numeric_send', 'inet_send', 'cidr_send')
            ) then substring(array_send(missing_array) from 25)
        end as sent
    from columns
    where has_missing
),

-- A numeric is sent as five numbers of two bytes and its digits, of two bytes
-- each: the count of digits, the weight of the first, the sign, and the count of
-- decimal places. It is stored as a header and the digits. The header has two
-- bytes where weight and places are small, or where it is no number, else four.
numeric_parts as (
    select
        table_oid,
        attnum,
        sent,
        get_byte(sent, 4) * 256 + get_byte(sent, 5) as sign,
        (get_byte(sent, 2) * 256 + get_byte(sent, 3) + 32768) % 65536 - 32768 as weight,
        get_byte(sent, 6) * 256 + get_byte(sent, 7) as places
    from missing_values
    where send_name = 'numeric_send'
),

numeric_headers as (
    select
        table_oid,
        attnum,
        sent,
        case
            when sign >= 49152 then int2send((sign - 65536)::int2)
            when places <= 63 and weight between -64 and 63 then int2send((
                32768 + sign / 16384 * 8192 + places * 128 + (weight + 128) % 128 - 65536
            )::int2)
            else int2send((sign + places)::int2) || int2send(weight::int2)
        end as header
    from numeric_parts
),

-- What is stored, each as numbers with the highest byte first, and their widths.
missing_numbers as (
    select table_oid, attnum, sent as highest_first, widths
    from missing_values
    join sent_numbers on sent_numbers.send_name = missing_values.send_name
    where sent is not null

    union all
    select table_oid, attnum, oidsend(label.oid), array[4]
    from missing_values
    join pg_enum as label on label.enumtypid = type_oid and label.enumlabel = missing_text
    where is_enum

    union all
    select table_oid, attnum, convert_to(missing_text, getdatabaseencoding()), array[]::int4[]
    from missing_values
    where server_type in ('text', 'varchar', 'bpchar', 'json')

    -- A name fills its 64 bytes up with zeros.
    union all
    select
        table_oid,
        attnum,
        convert_to(missing_text, getdatabaseencoding())
            || decode(repeat('00', 64 - length(convert_to(missing_text, getdatabaseencoding()))), 'hex'),
        array[]::int4[]
    from missing_values
    where server_type = 'name'

    -- An address is sent as its family, its bits, two bytes that aren't stored, and its bytes.
    union all
    select table_oid, attnum, substring(sent for 2) || substring(sent from 5), array[]::int4[]
    from missing_values
    where send_name in ('inet_send', 'cidr_send')

    union all
    select
        table_oid,
        attnum,
        header || substring(sent from 9),
        array_fill(2, array[length(header || substring(sent from 9)) / 2])
    from numeric_headers
),

-- The digits of each number's bytes, the lowest first, and those of the rest.
missing_digits as (
    select
        table_oid,
        attnum,
        coalesce((
            select string_agg(
                lpad(to_hex(get_byte(highest_first, first + place)), 2, '0'), '' order by number, place desc
            )
            from (
                select number, width, (sum(width) over (order by number) - width)::int4 as first
                from unnest(widths) with ordinality as piece (width, number)
            ) as pieces
            cross join lateral generate_series(0, width - 1) as place
        ), '') || encode(substring(
            highest_first from 1 + (select coalesce(sum(width), 0)::int4 from unnest(widths) as width)
        ), 'hex') as digits
    from missing_numbers
),

-- Why a missing value is left out; null where its digits are listed.
missing_reasons as (
    select
        columns.table_oid,
        columns.attnum,
        columns.column_name,
        missing_digits.digits,
        case
            when missing_digits.digits is null
            then format('the stored bytes of its type %s can''t be told from SQL', type_names.in_toml)
            when length(missing_digits.digits) > 16000
            then 'it has more than 8000 bytes'
        end as reason
    from columns
    left join missing_digits
        on missing_digits.table_oid = columns.table_oid and missing_digits.attnum = columns.attnum
    join names as type_names on type_names.name = columns.type_name
    where columns.has_missing
),

indexes as (
    select
        index.*,
        owner.oid as table_oid,
        owner.is_left,
        class.relname::text as index_name,
        class.oid in (select relation from locked) as is_index_locked,
        pg_relation_filepath(class.oid) as index_path,
        case when class.oid not in (select relation from locked) then pg_relation_size(class.oid) / 8192 end
            as index_blocks,
        -- A server before 15 has no such indexes.
        indisunique and coalesce((to_jsonb(index) ->> 'indnullsnotdistinct')::boolean, false) as has_equal_nulls,
        access_method.amname
    from pg_index as index
    join (
        select oid, false as is_left from described
        union all
        select oid, true from left_tables
    ) as owner on index.indrelid = owner.oid
    join pg_class as class on class.oid = index.indexrelid
    join pg_am as access_method on access_method.oid = class.relam
),

-- The columns of each index, those of its key first, with the collation that
-- orders them; the included ones behind them have no collation, order or operator
-- class. 'C' stands for no collation too. A collation of ICU, and ICU as the
-- default of the database, is never C, whatever the names for the operating system
-- say.
index_columns as (
    select
        indexes.indexrelid,
        place.position,
        place.position <= indexes.indnkeyatts as is_key,
        columns.column_name,
        columns.key_type,
        missing_reasons.reason is not null as has_lost_value,
        indexes.indcollation[place.position - 1] as key_collation,
        indexes.indoption[place.position - 1] & 1 = 1 as is_descending,
        indexes.indoption[place.position - 1] & 2 = 2 as has_nulls_first,
        operator_class.opcname::text as class_name,
        operator_class.opcnamespace = 'pg_catalog'::regnamespace as is_class_of_server,
        case
            when indexes.indcollation[place.position - 1] = 0 then 'C'
            when indexes.indcollation[place.position - 1] = 'pg_catalog."default"'::regcollation then (
                select case
                    when coalesce(to_jsonb(database) ->> 'datlocprovider', 'c') = 'c' then database.datcollate::text
                end
                from pg_database as database
                where database.datname = current_database()
            )
            else (
                select case when collation_row.collprovider = 'c' then collation_row.collcollate::text end
                from pg_collation as collation_row
                where collation_row.oid = indexes.indcollation[place.position - 1]
            )
        end as collation_name
    from indexes
    cross join lateral unnest(indexes.indkey::int2[]) with ordinality as place (attnum, position)
    left join columns on columns.table_oid = indexes.table_oid and columns.attnum = place.attnum
    left join missing_reasons
        on missing_reasons.table_oid = indexes.table_oid and missing_reasons.attnum = place.attnum
    left join pg_opclass as operator_class
        on place.position <= indexes.indnkeyatts
        and operator_class.oid = indexes.indclass[place.position - 1]
),

-- A key column that the checker can order: one of the key types, by the usual
-- order of the server or by the pattern order, which compares bytes.
key_columns as (
    select
        *,
        coalesce(key_type is not null and is_class_of_server and class_name in (
            'bool_ops', 'int2_ops', 'int4_ops', 'int8_ops', 'uuid_ops', 'bytea_ops',
            'oid_ops', 'date_ops', 'time_ops', 'timestamp_ops', 'timestamptz_ops', 'money_ops',
            'text_ops', 'varchar_ops', 'text_pattern_ops', 'varchar_pattern_ops'
        ), false) as has_known_order,
        key_type is distinct from 'text'
            or class_name in ('text_pattern_ops', 'varchar_pattern_ops')
            or coalesce(collation_name in ('C', 'POSIX'), false)
            or key_collation in (select unnest(current_setting('kamzudrev.byte_order')::oid[])) as is_ordered_by_bytes
    from index_columns
    where is_key
),

key_faults as (
    select
        indexrelid,
        bool_or(not has_known_order) as has_unknown_order,
        bool_or(not is_ordered_by_bytes) as has_other_collation
    from key_columns
    group by indexrelid
),

-- The columns that an index includes beside its key.
included_columns as (
    select index_columns.indexrelid, string_agg(names.in_toml, ', ' order by index_columns.position) as in_toml
    from index_columns
    join names on names.name = index_columns.column_name
    where not index_columns.is_key
    group by index_columns.indexrelid
),

-- Why an index is left out; null where it is listed.
index_reasons as (
    select
        indexes.*,
        case
            when amname <> 'btree' then 'it is no B-tree, but ' || amname
            when is_left then 'its table is left out'
            when indpred is not null then 'it is partial'
            when indexprs is not null then 'it is on an expression'
            when not (indisvalid and indisready and indislive) then 'it is not valid'
            when indnatts - indnkeyatts > 24 then 'it has more than 24 included columns'
            when indnkeyatts > 8 then 'it has more than 8 key columns'
            when has_unknown_order then 'the type or operator class of a key column'
            when has_other_collation then 'the collation of a key column is not C'
            when indexes.indexrelid in (select indexrelid from index_columns where has_lost_value)
            then 'the missing value of one of its columns is left out'
            when index_path is null then 'it has no file'
            when is_index_locked
            then format('another session keeps it for itself, for longer than %s', :'lock_timeout')
            when index_blocks > 1048576
            then format('it has %s blocks, and the checker reads 1048576 at most (8 GiB)', index_blocks)
        end as fault
    from indexes
    left join key_faults on key_faults.indexrelid = indexes.indexrelid
),

numbered_indexes as (
    select
        indexrelid,
        table_oid,
        index_name,
        index_path,
        index_blocks,
        indisunique,
        has_equal_nulls,
        row_number() over (partition by table_oid order by index_name) as number,
        case
            when fault is not null then fault
            when row_number() over (partition by table_oid, fault is null order by index_name) > 32
            then 'a case lists at most 32 indexes'
        end as reason
    from index_reasons
),

-- Each name as the texts have it: as a JSON string, which TOML reads as it is but
-- for the byte 127; as SQL has it, on one line; and for the names of files.
names (name, in_toml, in_sql, in_files) as (
    select
        name,
        replace(to_json(name)::text, chr(127), '\u007F'),
        case
            when name ~ '[\u0001-\u001f\u007f-\u009f]' then 'U&"' || (
                select string_agg(
                    case
                        when character = '\' then '\\'
                        when character = '"' then '""'
                        when character ~ '[\u0001-\u001f\u007f-\u009f]'
                            then '\' || lpad(to_hex(ascii(character)), 4, '0')
                        else character
                    end,
                    '' order by place
                )
                from unnest(string_to_array(name, null)) with ordinality as characters (character, place)
            ) || '"'
            else quote_ident(name)
        end,
        (
            select string_agg(
                case
                    when byte > 127 or chr(byte) !~ '[0-9A-Za-z_-]' then '%' || upper(lpad(to_hex(byte), 2, '0'))
                    else chr(byte)
                end,
                '' order by place
            )
            from generate_series(0, length(textsend(name)) - 1) as place
            cross join lateral get_byte(textsend(name), place) as byte
        )
    from (
        select schema_name from asked
        union
        select table_name from asked
        union
        select column_name from attributes
        union
        select index_name from indexes
        union
        select type_name from columns where has_missing
        union
        select current_database()
    ) as all_names (name)
),

named_tables as (
    select
        tables.oid as table_oid,
        tables.reason,
        schemas.in_sql || '.' || own.in_sql as in_sql,
        case
            when length(schemas.in_files || own.in_files) <= 240 then schemas.in_files || '.' || own.in_files
            else left(schemas.in_files, 114) || '.' || left(own.in_files, 114) || '.' || tables.oid
        end || '.toml' as in_files
    from tables
    join names as schemas on schemas.name = tables.schema_name
    join names as own on own.name = tables.table_name
),

-- The lines of the texts, each under its part, its number in the part, and its
-- place there.
lines (table_oid, part, number, place, line) as (
    select table_oid, 0, 0, 0, concat_ws(
        E'\n',
        '# Table: ' || named_tables.in_sql,
        '# Database: ' || (select in_sql from names where name = current_database()),
        '# Cluster: ' || (select system_identifier from pg_control_system()),
        '# Catalog: ' || pg_relation_filepath('pg_class'),
        '# Printed: ' || now()::date,
        (
            select 'segment_blocks = ' || setting
            from pg_settings
            where name = 'segment_size' and setting <> '131072'
        ),
        '[cluster]',
        'next_xid = @NextXID@',
        'oldest_xid = @oldestXID@',
        'next_multi = @NextMultiXactId@',
        'oldest_multi = @oldestMultiXid@',
        'next_member = @NextMultiOffset@',
        'xact = "pg_xact"',
        'offsets = "pg_multixact/offsets"',
        'members = "pg_multixact/members"'
    )
    from named_tables
    where reason is null

    union all
    select oid, 1, 0, 0, concat_ws(
        E'\n',
        '[heap]',
        format('file = "%s"', heap_path),
        'toast_file = "' || toast_path || '"',
        'toast_oid = ' || toast_oid::int8
    )
    from described

    union all
    select columns.table_oid, 2, columns.attnum, 0, concat_ws(
        E'\n',
        '[[column]]',
        'name = ' || names.in_toml,
        format('type = "%s"', case
            when columns.key_type is not null then columns.key_type
            when columns.stored_length = -1 then 'varlena'
            else 'fixed'
        end),
        case
            when columns.key_type is null and columns.stored_length <> -1
            then 'len = ' || columns.stored_length
        end,
        case when columns.key_type is null then 'align = ' || columns.alignment end,
        case
            when missing_reasons.reason is not null
            then format(
                '# The missing value of %s is left out and read as null: %s.', names.in_toml, missing_reasons.reason
            )
            else 'missing = "' || missing_reasons.digits || '"'
        end
    )
    from columns
    join names on names.name = columns.column_name
    left join missing_reasons
        on missing_reasons.table_oid = columns.table_oid and missing_reasons.attnum = columns.attnum

    union all
    select table_oid, 3, number, 0, case
        when reason is not null
        then format('# The index %s is left out: %s.', names.in_toml, reason)
        else concat_ws(
            E'\n',
            '[[index]]',
            'name = ' || names.in_toml,
            format('file = "%s"', index_path),
            'include = [' || included_columns.in_toml || ']',
            case when indisunique and :'unique' = 'on' then 'unique = true' end,
            case when has_equal_nulls and :'unique' = 'on' then 'nulls_not_distinct = true' end
        )
    end
    from numbered_indexes
    join names on names.name = numbered_indexes.index_name
    left join included_columns on included_columns.indexrelid = numbered_indexes.indexrelid

    union all
    select numbered_indexes.table_oid, 3, numbered_indexes.number, key_columns.position, concat_ws(
        E'\n',
        '[[index.key]]',
        'column = ' || names.in_toml,
        case when key_columns.is_descending then 'desc = true' end,
        -- Without the key, nulls stand first exactly where the order is descending.
        case
            when key_columns.has_nulls_first <> key_columns.is_descending
            then 'nulls_first = ' || key_columns.has_nulls_first
        end
    )
    from key_columns
    join numbered_indexes on numbered_indexes.indexrelid = key_columns.indexrelid
    join names on names.name = key_columns.column_name
    where numbered_indexes.reason is null
),

texts as (
    select table_oid, string_agg(line, E'\n' order by part, number, place) as case_text
    from lines
    where table_oid in (select oid from described)
    group by table_oid
),

-- The files of what is left out, each with its blocks.
records (place, kind, name, text, files) as (
    select 1, 'case', named_tables.in_files, texts.case_text, ''
    from texts
    join named_tables on named_tables.table_oid = texts.table_oid

    union all
    select
        2,
        case when left_tables.oid is null then 'no file' else 'table' end,
        named_tables.in_sql,
        named_tables.reason,
        concat_ws(
            ' ',
            left_tables.heap_path || ' ' || coalesce(left_tables.heap_blocks::text, '?'),
            left_tables.toast_path || ' ' || coalesce(left_tables.toast_blocks::text, '?')
        )
    from named_tables
    left join left_tables on left_tables.oid = named_tables.table_oid
    where named_tables.reason is not null

    union all
    select
        3,
        'index',
        format('%s of %s', names.in_sql, named_tables.in_sql),
        numbered_indexes.reason,
        concat(index_path || ' ' || coalesce(index_blocks::text, '?'))
    from numbered_indexes
    join named_tables on named_tables.table_oid = numbered_indexes.table_oid
    join names on names.name = numbered_indexes.index_name
    where numbered_indexes.reason is not null

    union all
    select 4, 'missing value', format('%s of %s', names.in_sql, named_tables.in_sql), missing_reasons.reason, ''
    from missing_reasons
    join named_tables on named_tables.table_oid = missing_reasons.table_oid
    join names on names.name = missing_reasons.column_name
    where missing_reasons.reason is not null
)

select kind, name, text, files
from (
    select * from records
    where place <= 2 or not :'is_one'

    union all
    select 5, 'end', (select in_sql from names where names.name = current_database()), count(*)::text, ''
    from records
    where not :'is_one'
    having not :'is_one'
) as printed
order by place, name
\if :is_one
\gset
select set_config('kamzudrev.reason', :'text', false) is not null and :'kind' <> 'case' as is_refused
\gset
\if :is_refused
do $$ begin raise exception 'there is no case for this table: %', current_setting('kamzudrev.reason'); end $$;
\endif
select :'text';
\else
\g
\endif
