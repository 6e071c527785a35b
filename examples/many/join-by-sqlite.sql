-- Joins the answers of the table `answers`, one in each row, in whole numbers alone, and writes one
-- answer. What doesn't fit is refused: a whole number above 63 bits by the checks of a table, and a
-- sum above 63 bits by `sum`.

-- One row for each member of each object. `count`, `sum#A`, `min#A` and `max#A` are results; those
-- of other kernels can't be joined. A number above 63 bits comes as floating point.
create table members (
    answer integer, object integer, name text, value any, is_text integer, is_result integer,
    check (not (name glob 'avg#*' or name glob 'percent_total#*' or name glob 'inclusive#*')),
    check (typeof(value) in ('integer', 'text'))
) strict;
insert into members
select answers.rowid, object.key, member.key, member.value, member.type = 'text',
    member.key = 'count' or member.key glob 'sum#*' or member.key glob 'min#*'
    or member.key glob 'max#*'
from answers, json_each(answers.answer) as object, json_each(object.value) as member;

-- The group of each object: an object of its other members, in the order of their names.
create table groups as
select answer, object, json_group_object(name, value) filter (where not is_result) as members
from (select * from members order by answer, object, name) group by answer, object;
create unique index no_groups_look_alike on groups (answer, members);
create unique index objects on groups (answer, object);

-- The text of each result: its sign, the digits before the point, and those behind it.
create table digits as
select answer, object, name, is_text, iif(value like '-%', -1, 1) as sign,
    substr(text, 1, point - 1) as before, substr(text, point + 1) as behind
from (select *, instr(text || '.', '.') as point
    from (select *, ltrim(value, '-') as text from members where is_result));

-- Each result in wholes and billionths, both with its sign. That its digits come out again says
-- that they are whole numbers which fit.
create table results (
    members text, name text, is_text integer, whole integer not null, billionths integer not null,
    before text, behind text,
    check (before = cast(abs(whole) as text)),
    check (length(behind) <= 9),
    check (substr(behind || '000000000', 1, 9) = printf('%09d', abs(billionths)))
) strict;
insert into results
select members, name, is_text, sign * cast(before as integer),
    sign * cast(substr(behind || '000000000', 1, 9) as integer), before, behind
from digits join groups using (answer, object);

-- Of each group and name the sum, or the first or the last by wholes and then billionths.
create table joined (
    members text, name text, is_text integer, whole integer not null, billionths integer not null
) strict;
insert into joined
select members, name, max(is_text), sum(whole), sum(billionths)
from results where name = 'count' or name glob 'sum#*' group by members, name;
insert into joined
select distinct members, name, max(is_text) over numbers,
    iif(name glob 'min#*', first_value(whole) over numbers, last_value(whole) over numbers),
    iif(name glob 'min#*', first_value(billionths) over numbers,
        last_value(billionths) over numbers)
from results where name glob 'min#*' or name glob 'max#*'
window numbers as (partition by members, name order by whole, billionths
    rows between unbounded preceding and unbounded following);

-- A billion billionths are a whole; then both get one sign again.
update joined set whole = whole + billionths / 1000000000, billionths = billionths % 1000000000;
update joined set whole = whole - 1, billionths = billionths + 1000000000
where whole > 0 and billionths < 0;
update joined set whole = whole + 1, billionths = billionths - 1000000000
where whole < 0 and billionths > 0;

-- A decimal is a text again, without zeros at its end.
create table shown as
select members, name, iif(is_text, json_quote(iif(whole < 0 or billionths < 0, '-', '')
    || rtrim(rtrim(printf('%d.%09d', abs(whole), abs(billionths)), '0'), '.')), whole) as value
from joined;

select json_group_array(json_patch(members, results))
from (select members, json_group_object(name, json(value)) as results from shown group by members);
