-- A schema of each case that examples/from_postgres/export.psql meets: what it takes, and what it leaves out with a reason.
set client_min_messages = warning;
create schema library;
create schema "Loans";
set search_path = library;

create table author (
    id smallint primary key,
    name text not null,
    motto varchar(80),
    alive boolean,
    books bigint,
    born date,
    weight numeric(6, 2),
    tags text[],
    notes jsonb,
    code char(3),
    seen timestamptz not null default '2026-01-01 00:00:00+00'
);
insert into author (id, name, motto, alive, books, born) values
    (1, 'Ann', null, true, 9223372036854775807, '1970-01-01'),
    (2, 'O''Hara, "Jo"', E'two\nlines, a \\ and a "quote"', false, -1, null),
    (3, '', '', null, null, null),
    (-4, 'Zürich ☃', E'\t \\. ', true, 0, null),
    (5, 'null', 'NULL', false, 1, null);
update author set weight = 70.50, tags = '{a,"b, c",NULL}', notes = '{"k": [1, null]}', code = 'ab', seen = '2026-02-03 04:05:06.7+02' where id = 1;
update author set weight = -0.10, tags = '{}', notes = 'null' where id = 2;

-- a key of two columns of two types, a part of which is a foreign key, and a foreign key to the table itself
create table book (
    author_id smallint not null references author,
    title text not null,
    shelf uuid,
    follows_author smallint,
    follows_title text,
    lent boolean not null,
    pages integer generated always as (length(title)) stored,
    primary key (title, author_id),
    constraint follows foreign key (follows_title, follows_author) references book (title, author_id)
);
create table shelf (id uuid primary key, room varchar not null unique, gone integer);
alter table shelf drop column gone;
insert into shelf values ('a0eebc99-9c0b-4ef8-bb6d-6bb9bd380a11', 'North'), ('00000000-0000-0000-0000-000000000000', 'South');
alter table book add constraint stands foreign key (shelf) references shelf;
insert into book values
    (1, 'First', 'a0eebc99-9c0b-4ef8-bb6d-6bb9bd380a11', null, null, true),
    (1, 'Second', null, 1, 'First', false),
    (2, 'First', '00000000-0000-0000-0000-000000000000', null, null, false);

-- one text column alone, with the empty text among its rows, and none at all
create table word (word text primary key);
insert into word values (''), ('a'), ('"'), ('\.');
create table nothing (id bigint primary key, text text);

-- names that want quotes, one with a dot, in another schema
create table "Loans"."Loan of a Book" ("Id" integer primary key, "who's" text, "select" boolean, title text, author_id smallint,
    foreign key (title, author_id) references library.book (title, author_id));
insert into "Loans"."Loan of a Book" values (1, 'me', true, 'First', 1), (2, null, null, null, null);

-- whole partitioned tables, and tables with heirs with the rows of these
create table visit (id integer, room integer, primary key (id)) partition by range (id);
create table visit_low partition of visit for values from (0) to (100);
create table visit_high partition of visit for values from (100) to (200);
insert into visit values (150, 1), (5, 2), (99, null);
create table ticket (id integer generated always as identity primary key, visit integer references visit, price smallint);
insert into ticket (visit, price) values (99, 12), (150, null);
create table person (id integer primary key, name text);
create table member (since integer, primary key (id)) inherits (person);
insert into person values (1, 'a person');
insert into member values (2, 'a member', 2026);

-- views with a key that is named: by an option, and by a comment
create view authors as select id, name, seen::date as day from author;
create view room as select s.id, s.room, count(b.title) as books from shelf s left join book b on b.shelf = s.id group by s.id;
comment on view room is e'The rooms of the library.\nhq key: id';
create materialized view heavy as select author_id, title, lent from book where pages > 4;
comment on materialized view heavy is 'hq key: title , author_id';

-- what is left out whole
create view nameless as select name from author;
create view missing as select id from author;
comment on view missing is 'hq key: id, number';
create materialized view counted as select count(*) from author;
create table log (line text);
create table moment (at timestamptz primary key, what text);
create extension if not exists file_fdw with schema public;
create server files foreign data wrapper file_fdw;
create foreign table outside (line text) server files options (filename '/dev/null');
create table "a/b" (id integer primary key);
create schema dotted;
create schema "dotted.x";
create table dotted."x.y" (id integer primary key);
create table "dotted.x".y (id integer primary key);

-- columns that are opaque, and a foreign key that is left out
create type mood as enum ('sad', 'happy');
create domain age as integer check (value >= 0);
create collation any_case (provider = icu, locale = 'und-u-ks-level2', deterministic = false);
create table odd (
    id integer primary key,
    mood mood,
    age age,
    name text collate any_case,
    price money,
    at time,
    moment timestamptz references moment,
    word text references word
);

-- a schema of its own for the text that a file cannot hold
create schema texts;
create table texts.sign (id integer primary key, sign text);
insert into texts.sign values (1, e'\\N');
