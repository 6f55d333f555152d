-- The store that bench/serve asks, as tables, and a function for each kind of request: read, retitle and set_lists. A
-- request calls one of them, and is a transaction. Each judges by the access lists as serve.lua does, and looks at the
-- picture's album as that does, though set_lists alone needs it.
--
-- No column is declared to refer to another table: no request changes one that does, but each update would look at it.

CREATE TYPE entry AS (kind text, named text, mask integer, flags integer);

-- A list is a row with its entries in order, so one update sets it. Were they a jsonb value, a read would take half as
-- much processor time again. Where rows are updated a page has room for second versions, so the index stays as it is.
CREATE TABLE lists (number integer PRIMARY KEY, entries entry[] NOT NULL) WITH (fillfactor = 50);

CREATE TABLE groups (
    number integer PRIMARY KEY,
    owner text NOT NULL,
    owning_group integer NOT NULL,
    list integer NOT NULL
);

CREATE TABLE members (member text, of_group integer, PRIMARY KEY (member, of_group));

CREATE TABLE inner_groups (
    inner_group integer,
    outer_group integer,
    PRIMARY KEY (inner_group, outer_group)
);

CREATE TABLE albums (
    number integer PRIMARY KEY,
    title text NOT NULL,
    home integer,
    owner text NOT NULL,
    owning_group integer NOT NULL,
    list integer NOT NULL
);

CREATE TABLE pictures (
    number integer PRIMARY KEY,
    title text NOT NULL,
    content text NOT NULL,
    home integer NOT NULL,
    owner text NOT NULL,
    owning_group integer NOT NULL,
    list integer NOT NULL
) WITH (fillfactor = 50);

-- The groups that have who asks, or list a group that has. (The script goes down, from the groups of an access list.
-- Here an index leads up from who asks.)
CREATE FUNCTION groups_of(asker text) RETURNS integer[] STABLE LANGUAGE plpgsql AS $$
BEGIN
    RETURN ARRAY(
        WITH RECURSIVE found AS (
            SELECT of_group FROM members WHERE member = asker
            UNION SELECT outer_group FROM found JOIN inner_groups ON inner_group = of_group
        )
        SELECT of_group FROM found
    );
END $$;

-- Whether who asks, and is in these groups, is meant by an entry of the list of what this owner and this group have.
CREATE FUNCTION means(entry entry, asker text, groups integer[], owner text, owning_group integer) RETURNS boolean
IMMUTABLE LANGUAGE sql AS $$
    SELECT CASE
        WHEN entry.flags & 8 <> 0 THEN false -- inherit only
        WHEN entry.named = 'EVERYONE@' THEN true
        WHEN entry.named = 'OWNER@' THEN asker = owner
        WHEN entry.named = 'GROUP@' THEN owning_group = ANY (groups)
        WHEN entry.named = 'ANONYMOUS@' THEN asker = 'ANONYMOUS@'
        WHEN entry.named = 'AUTHENTICATED@' THEN asker <> 'ANONYMOUS@'
        WHEN entry.flags & 64 <> 0 THEN split_part(entry.named, '@', 1)::integer = ANY (groups)
        ELSE entry.named = asker
    END
$$;

-- Whether each bit of the mask is allowed by the first entry of the list that mentions it.
CREATE FUNCTION is_granted(mask integer, asker text, owner text, owning_group integer, list integer) RETURNS boolean
STABLE LANGUAGE plpgsql AS $$
DECLARE
    groups integer[] := groups_of(asker);
    listed entry[];
    entry entry;
BEGIN
    SELECT entries INTO listed FROM lists WHERE number = list;
    FOREACH entry IN ARRAY listed LOOP
        IF entry.mask & mask <> 0 AND means(entry, asker, groups, owner, owning_group) THEN
            IF entry.kind = 'deny' THEN RETURN false; END IF;
            IF entry.kind = 'allow' THEN mask := mask & ~entry.mask; END IF;
        END IF;
    END LOOP;
    RETURN mask = 0;
END $$;

CREATE FUNCTION read(asker text, asked integer) RETURNS text STABLE LANGUAGE plpgsql AS $$
DECLARE
    picture pictures;
    album albums;
BEGIN
    SELECT * INTO picture FROM pictures WHERE number = asked;
    SELECT * INTO album FROM albums WHERE number = picture.home;
    IF NOT is_granted(1, asker, picture.owner, picture.owning_group, picture.list) THEN RETURN 'denied'; END IF;
    RETURN 'served ' || picture.title || ' ' || picture.content;
END $$;

CREATE FUNCTION retitle(asker text, asked integer, new_title text) RETURNS text LANGUAGE plpgsql AS $$
DECLARE
    picture pictures;
    album albums;
BEGIN
    SELECT * INTO picture FROM pictures WHERE number = asked;
    SELECT * INTO album FROM albums WHERE number = picture.home;
    IF NOT is_granted(256, asker, picture.owner, picture.owning_group, picture.list) THEN RETURN 'denied'; END IF;
    UPDATE pictures SET title = new_title WHERE number = asked;
    RETURN 'committed';
END $$;

CREATE FUNCTION set_lists(asker text, asked integer, pictures_list entry[], albums_list entry[]) RETURNS text
LANGUAGE plpgsql AS $$
DECLARE
    picture pictures;
    album albums;
BEGIN
    SELECT * INTO picture FROM pictures WHERE number = asked;
    SELECT * INTO album FROM albums WHERE number = picture.home;
    IF NOT is_granted(262144, asker, picture.owner, picture.owning_group, picture.list) THEN RETURN 'denied'; END IF;
    IF NOT is_granted(262144, asker, album.owner, album.owning_group, album.list) THEN RETURN 'denied'; END IF;
    UPDATE lists SET entries = pictures_list WHERE number = picture.list;
    UPDATE lists SET entries = albums_list WHERE number = album.list;
    RETURN 'committed';
END $$;
