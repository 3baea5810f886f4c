-- Writes arrays back with PostgreSQL, alone or among other members. A function a style, from a text to the text of a value or a row:
-- plain (jsonb as text), pretty (jsonb_pretty), of_row (columns of SQL types, an array of up to six dimensions among them, by
-- row_to_json), built (json_build_object), kept (json, which keeps the text that it judged; the name `data` told by escapes). odd: what
-- else a row may have where a number is due.
create function members() returns jsonb language sql as $$
    select jsonb_build_object(
        'a', e'a "quoted" word, a \\ and a / \b\f\n\r\t\u0001\u001f\u007f', 'b', 'naïve €, 日本, 😀', 'c', 1.50, 'd', -1e-7,
        'e', 1e300, 'f', jsonb_build_object('data', '[9, 9]'::jsonb, 'a', '{"b": [[], {}, [{"data": null}]]}'::jsonb),
        'g', null, 'h', true,
        'größe', false, 'Data', 1, 'd\u0061ta', 2, e'd\u0430ta', 3, 'date', '2026-11-17'::date, 'text', '{"data":[7]}',
        'deep', '[[[[[[[[[[[[[[[]]]]]]]]]]]]]]]'::jsonb)
$$;
create function plain(text) returns text language sql as $$ select $1::jsonb::text $$;
create function pretty(text) returns text language sql as $$ select jsonb_pretty(members() || $1::jsonb) $$;
create function of_array(text) returns json language sql as $$
    select case when $1 ~ 'true|false'
        then array_to_json(translate($1::jsonb ->> 'data', '[]', '{}')::boolean[], true)
        else array_to_json(translate($1::jsonb ->> 'data', '[]', '{}')::bigint[], true) end
$$;
create function of_row(text) returns text language sql as $$
    select row_to_json(r, true)::text
    from (select 1 as id, 2.50 as rate, 1e-300::float8 as tiny, 'Infinity'::float8 as "größe", e'a "quoted"\nname' as "data ",
        null::text as none, of_array($1) as data, true as yes, timestamp '2026-11-17 06:00' as seen, members() - 'deep' as "Data",
        array['a', null, 'ü'] as list) r
$$;
create function built(text) returns text language sql as $$
    select json_build_object('', 1.5, 'nested', members() -> 'f', 'data', $1::json -> 'data', 'date', date '2026-11-17',
        'list', json_build_array(1, 'x'))::text
$$;
create function kept(text) returns text language sql as $$
    select format(e'\r\n{ "z":%s ,\t"d\\u0061t\\u0061" : %s,"\\u0064\\\\u0061ta":-0.0e+00 } ',
        members() - 'deep', $1::jsonb -> 'data')::json::text
$$;
create function odd() returns setof text language sql as $$
    select json_build_object('data', json_build_array(1, number, 3))::text
    from unnest(array[to_json(5.0), to_json('-0'::float8), to_json(1e18::float8), to_json(1e18::numeric), to_json(9223372036854775808),
        to_json('NaN'::float8), to_json('7'::text)]) as number
$$;
