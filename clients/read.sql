-- Prints what PostgreSQL finds in one text, psql's variable `text`: the widths, and a line a cell. The text is read as jsonb and unnested
-- level by level. A number is cast to bigint, and printed as such if that is the same number.
with recursive whole as (
    select :'text'::jsonb as value
), part (depth, place, value) as (
    select 0, '{}'::bigint[], value -> 'data' from whole
    union all
    select depth + 1, part.place || item.place, item.value
    from part, jsonb_array_elements(case jsonb_typeof(part.value) when 'array' then part.value else '[]' end)
        with ordinality as item (value, place)
), measured as (
    select depth, case jsonb_typeof(value) when 'array' then jsonb_array_length(value) else 0 end as width from part
), level as (
    select depth, case when min(width) = max(width) then max(width)::text else 'ragged' end as width
    from measured group by depth having max(width) > 0
), line (kind, place, line) as (
    select 1, null::bigint[], string_agg(width, ' ' order by depth) from level
    where (select array_agg(member) from whole, jsonb_object_keys(value) as member) = '{data}'
    union all
    select 2, place, case
        when jsonb_typeof(value) <> 'number' then value::text
        when value::bigint::text = value::text then value::bigint::text
        else 'no bigint: ' || value::text end
    from part where jsonb_typeof(value) <> 'array'
)
select line from line order by kind, place;
