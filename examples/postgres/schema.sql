-- The tables of an intake whose records `formd judge` judges. Once: psql -d intake -f schema.sql
SET search_path = public;

-- Declarations as they were put in force: those of the last row are.
CREATE TABLE declaration (
    number integer GENERATED ALWAYS AS IDENTITY PRIMARY KEY,
    digest text NOT NULL, -- SHA-256 of the text
    text text NOT NULL,
    taken_at timestamptz NOT NULL DEFAULT clock_timestamp()
);

-- Records. A bundle is the very text that was judged, so a redeclare judges the same line again, and whole numbers keep their 64 bits. A jsonb keeps these too, but takes the
-- server more time than all else of a put, and comes back with spaces, by which a line may become too long. The check is that each text can be made a jsonb, so that SQL can look
-- into all of them: U+0000 is the one thing that the judge takes and jsonb doesn't. (It refuses a text that spells \u0000 by a backslash of its own as well.)
CREATE TABLE record (
    id text COLLATE "C" PRIMARY KEY, -- ordered by bytes, as lists of formd are
    form text NOT NULL,
    bundle text NOT NULL CHECK (strpos(bundle, '\u0000') = 0),
    declared text NOT NULL, -- the digest of the declarations by which it was judged when it came
    taken_at timestamptz NOT NULL DEFAULT clock_timestamp() -- of one id never twice the same
);
CREATE INDEX record_of_form ON record (form, id);

-- Writes a record that was judged by the declarations of a digest, where they are in force, and where that is there which is expected: anything (null), nothing
-- ('-infinity'), or the record that was taken at this moment. Else JD001 or JD002. All writes go by this function, under READ COMMITTED: a redeclare waits
-- until those that hold the lock are through, and the statements behind it see what a redeclare has left for which they waited. It writes as the owner of the tables, so that
-- others need no right to write them: GRANT SELECT ON record, declaration TO taker; GRANT EXECUTE ON FUNCTION keep TO taker. A redeclare is the owner's.
CREATE FUNCTION keep(new_id text, new_form text, new_bundle text, expected timestamptz, judged_by text) RETURNS void
LANGUAGE plpgsql SECURITY DEFINER SET search_path = public, pg_temp AS $$
BEGIN
    IF current_setting('transaction_isolation') <> 'read committed' THEN
        RAISE EXCEPTION 'keep writes under READ COMMITTED alone' USING ERRCODE = 'JD003';
    END IF;
    LOCK TABLE record IN ROW EXCLUSIVE MODE;
    IF judged_by IS DISTINCT FROM (SELECT digest FROM declaration ORDER BY number DESC LIMIT 1) THEN
        RAISE EXCEPTION 'other declarations are in force' USING ERRCODE = 'JD001';
    END IF;
    IF expected IS NULL THEN
        INSERT INTO record AS there (id, form, bundle, declared) VALUES (new_id, new_form, new_bundle, judged_by)
        ON CONFLICT (id) DO UPDATE SET form = excluded.form, bundle = excluded.bundle, declared = excluded.declared,
            taken_at = greatest(excluded.taken_at, there.taken_at + interval '1 microsecond');
    ELSIF expected = '-infinity' THEN
        INSERT INTO record (id, form, bundle, declared) VALUES (new_id, new_form, new_bundle, judged_by) ON CONFLICT (id) DO NOTHING;
    ELSE
        UPDATE record SET form = new_form, bundle = new_bundle, declared = judged_by,
            taken_at = greatest(clock_timestamp(), taken_at + interval '1 microsecond')
        WHERE id = new_id AND taken_at = expected;
    END IF;
    IF NOT FOUND THEN
        RAISE EXCEPTION '% isn''t as it was expected', new_id USING ERRCODE = 'JD002';
    END IF;
END $$;
REVOKE EXECUTE ON FUNCTION keep FROM PUBLIC;
