-- From a file without a version to version 1: tables in place of names that had to be parsed, and moments by which what
-- is settled goes. Each statement ends at the end of a line.
CREATE TABLE IF NOT EXISTS request_number (
    partner TEXT, correlation TEXT, number INTEGER NOT NULL, PRIMARY KEY (partner, correlation)) WITHOUT ROWID;
CREATE TABLE IF NOT EXISTS request_digest (
    partner TEXT, correlation TEXT, digest BLOB, number INTEGER NOT NULL,
    PRIMARY KEY (partner, correlation, digest)) WITHOUT ROWID;
CREATE TABLE IF NOT EXISTS response_url (
    partner TEXT, number INTEGER, url TEXT NOT NULL, PRIMARY KEY (partner, number)) WITHOUT ROWID;

-- A number of before without a digest stands for any.
ALTER TABLE request_digest ADD COLUMN given_at INTEGER NOT NULL DEFAULT 0;
INSERT INTO request_digest (partner, correlation, digest, number) SELECT partner, correlation, x'', number
    FROM request_number WHERE (partner, correlation) NOT IN (SELECT partner, correlation FROM request_digest);
UPDATE request_digest SET given_at = CAST(strftime('%s', 'now') AS INTEGER);
DROP TABLE request_number;
ALTER TABLE response_url ADD COLUMN kept_at INTEGER NOT NULL DEFAULT 0;
UPDATE response_url SET kept_at = CAST(strftime('%s', 'now') AS INTEGER);

CREATE TABLE sent_once (
    operator TEXT, request INTEGER, answer TEXT NOT NULL, PRIMARY KEY (operator, request)) WITHOUT ROWID;
INSERT INTO sent_once (operator, request, answer) SELECT substr(name, 6, 6), CAST(substr(name, 13) AS INTEGER), value
    FROM value_of WHERE name LIKE 'sent %';

CREATE TABLE registration (
    party TEXT PRIMARY KEY, is_decided INTEGER NOT NULL DEFAULT 0, token TEXT, their_token TEXT, versions_url TEXT,
    used TEXT, former TEXT, offer TEXT, details_of TEXT) WITHOUT ROWID;
INSERT INTO registration (party, is_decided, token, their_token, versions_url, used, former, offer, details_of)
    SELECT substr(name, 9), json_type(value, '$.token') IS NOT NULL, json_extract(value, '$.token'),
    json_extract(value, '$.their_token'), json_extract(value, '$.versions_url'), json_extract(value, '$.used'),
    json_extract(value, '$.former'), json_extract(value, '$.offer'), json_extract(value, '$.details_of')
    FROM value_of WHERE name LIKE 'partner %';
CREATE TABLE endpoint (
    party TEXT, module TEXT, role TEXT, url TEXT NOT NULL, PRIMARY KEY (party, module, role)) WITHOUT ROWID;
INSERT OR REPLACE INTO endpoint (party, module, role, url) SELECT substr(name, 9), json_extract(listed.value, '$[0]'),
    json_extract(listed.value, '$[1]'), json_extract(listed.value, '$[2]')
    FROM value_of, json_each(value_of.value, '$.endpoints') AS listed WHERE name LIKE 'partner %';

CREATE TABLE list_pulled (
    party TEXT, module TEXT, latest INTEGER NOT NULL, PRIMARY KEY (party, module)) WITHOUT ROWID;
INSERT INTO list_pulled (party, module, latest) SELECT substr(name, instr(name, ' of ') + 4),
    substr(name, 8, instr(name, ' of ') - 8), CAST(value AS INTEGER) FROM value_of WHERE name LIKE 'pulled %';

CREATE TABLE ocpp_evse (evse_uid TEXT PRIMARY KEY, status TEXT, service TEXT) WITHOUT ROWID;
INSERT INTO ocpp_evse (evse_uid, status) SELECT substr(name, 13), value FROM value_of WHERE name LIKE 'ocpp.status %';
INSERT INTO ocpp_evse (evse_uid, service) SELECT substr(name, 14), value FROM value_of WHERE name LIKE 'ocpp.service %'
    ON CONFLICT DO UPDATE SET service = excluded.service;
CREATE TABLE ocpp_id_tag (id_tag TEXT PRIMARY KEY, token_uid TEXT NOT NULL) WITHOUT ROWID;
INSERT INTO ocpp_id_tag (id_tag, token_uid) SELECT substr(name, 10), value FROM value_of WHERE name LIKE 'ocpp.uid %';

DELETE FROM value_of WHERE name LIKE 'sent %' OR name LIKE 'partner %' OR name LIKE 'pulled %'
    OR name LIKE 'ocpp.status %' OR name LIKE 'ocpp.service %' OR name LIKE 'ocpp.uid %';
