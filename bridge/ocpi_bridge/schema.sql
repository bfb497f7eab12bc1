-- What a bridge keeps, at version 2. Each group of tables has a class that alone reads and changes it. A table that is
-- new needs no other version. What changes one of these does: then migrations/ has the way from the version before.

-- Single values under names that are fixed.
CREATE TABLE IF NOT EXISTS value_of (name TEXT PRIMARY KEY, value TEXT NOT NULL);

-- node/kept.py (a line of a bridge of before has the number 0)
CREATE TABLE IF NOT EXISTS line_kept (number INTEGER PRIMARY KEY, text TEXT NOT NULL);

-- ocpi/requests.py: Requests (moments are seconds since 1970)
CREATE TABLE IF NOT EXISTS request_digest (
    partner TEXT, correlation TEXT, digest BLOB, number INTEGER NOT NULL, given_at INTEGER NOT NULL DEFAULT 0,
    PRIMARY KEY (partner, correlation, digest)) WITHOUT ROWID;
CREATE INDEX IF NOT EXISTS request_by_time ON request_digest (given_at);
CREATE TABLE IF NOT EXISTS response_url (
    partner TEXT, number INTEGER, url TEXT NOT NULL, kept_at INTEGER NOT NULL DEFAULT 0,
    PRIMARY KEY (partner, number)) WITHOUT ROWID;
CREATE INDEX IF NOT EXISTS url_by_time ON response_url (kept_at);

-- ocpi/requests.py: SentOnce
CREATE TABLE IF NOT EXISTS sent_once (
    operator TEXT, request INTEGER, answer TEXT NOT NULL, PRIMARY KEY (operator, request)) WITHOUT ROWID;

-- ocpi/partners.py (both tokens and versions_url count only where is_decided)
CREATE TABLE IF NOT EXISTS registration (
    party TEXT PRIMARY KEY, is_decided INTEGER NOT NULL DEFAULT 0, token TEXT, their_token TEXT, versions_url TEXT,
    used TEXT, former TEXT, offer TEXT, details_of TEXT) WITHOUT ROWID;
CREATE TABLE IF NOT EXISTS endpoint (
    party TEXT, module TEXT, role TEXT, url TEXT NOT NULL, PRIMARY KEY (party, module, role)) WITHOUT ROWID;

-- ocpi/objects.py: Objects
CREATE TABLE IF NOT EXISTS object_of (
    module TEXT, party TEXT, identifier TEXT, token_type TEXT, partner TEXT NOT NULL, last_updated INTEGER NOT NULL,
    status TEXT NOT NULL, evse_uid TEXT NOT NULL, body TEXT NOT NULL,
    PRIMARY KEY (module, party, identifier, token_type)) WITHOUT ROWID;
CREATE INDEX IF NOT EXISTS object_of_partner ON object_of (module, partner, last_updated, identifier);
CREATE INDEX IF NOT EXISTS object_by_time ON object_of (module, last_updated, identifier);
CREATE INDEX IF NOT EXISTS living_session ON object_of (evse_uid)
    WHERE module = 'sessions' AND status IN ('PENDING', 'ACTIVE');
CREATE TABLE IF NOT EXISTS refused_object (
    module TEXT, party TEXT, identifier TEXT, token_type TEXT, last_updated INTEGER NOT NULL,
    PRIMARY KEY (module, party, identifier, token_type)) WITHOUT ROWID;
CREATE TABLE IF NOT EXISTS accepted_request (partner TEXT, number INTEGER, PRIMARY KEY (partner, number)) WITHOUT ROWID;

-- ocpi/objects.py: Claims
CREATE TABLE IF NOT EXISTS claim (
    evse_uid TEXT PRIMARY KEY, status TEXT NOT NULL, partner TEXT NOT NULL, name TEXT NOT NULL, until INTEGER NOT NULL);

-- ocpi/orders.py
CREATE TABLE IF NOT EXISTS order_given (
    request INTEGER PRIMARY KEY, operator TEXT NOT NULL, reference TEXT COLLATE NOCASE, at INTEGER NOT NULL,
    state TEXT NOT NULL, result_until INTEGER);
CREATE INDEX IF NOT EXISTS order_result ON order_given (result_until) WHERE result_until IS NOT NULL;
CREATE INDEX IF NOT EXISTS order_late ON order_given (operator, reference) WHERE state = 'late';
CREATE TABLE IF NOT EXISTS session_to_stop (
    operator TEXT, session_id TEXT COLLATE NOCASE, ordered_at INTEGER NOT NULL,
    PRIMARY KEY (operator, session_id)) WITHOUT ROWID;

-- ocpi/pulling.py
CREATE TABLE IF NOT EXISTS list_pulled (
    party TEXT, module TEXT, latest INTEGER NOT NULL, PRIMARY KEY (party, module)) WITHOUT ROWID;
CREATE TABLE IF NOT EXISTS list_under_way (
    party TEXT, module TEXT, page TEXT NOT NULL, pages INTEGER NOT NULL, latest INTEGER NOT NULL,
    PRIMARY KEY (party, module)) WITHOUT ROWID;

-- ocpi/first_seen.py
CREATE TABLE IF NOT EXISTS place (name TEXT PRIMARY KEY, text TEXT NOT NULL, since TEXT NOT NULL);

-- ocpi/pushing.py
CREATE TABLE IF NOT EXISTS place_told (
    party TEXT, name TEXT, text TEXT NOT NULL, PRIMARY KEY (party, name)) WITHOUT ROWID;

-- ocpi/places.py
CREATE TABLE IF NOT EXISTS place_held (
    module TEXT, party TEXT, identifier TEXT, last_updated INTEGER NOT NULL, body TEXT NOT NULL,
    PRIMARY KEY (module, party, identifier)) WITHOUT ROWID;
CREATE INDEX IF NOT EXISTS place_by_time ON place_held (module, last_updated);

-- ocpp/site.py
CREATE TABLE IF NOT EXISTS ocpp_evse (evse_uid TEXT PRIMARY KEY, status TEXT, service TEXT) WITHOUT ROWID;
CREATE TABLE IF NOT EXISTS ocpp_id_tag (id_tag TEXT PRIMARY KEY, token_uid TEXT NOT NULL) WITHOUT ROWID;

-- ocpp/commands.py
CREATE TABLE IF NOT EXISTS ocpp_command (
    provider TEXT COLLATE NOCASE, number INTEGER, kind TEXT, evse_uid TEXT COLLATE NOCASE,
    connector_id TEXT COLLATE NOCASE, token_uid TEXT COLLATE NOCASE, reference TEXT COLLATE NOCASE,
    session_id TEXT COLLATE NOCASE, response_url TEXT, state TEXT DEFAULT 'open', ended_by INTEGER UNIQUE,
    until REAL, PRIMARY KEY (provider, number));
CREATE INDEX IF NOT EXISTS ocpp_command_open ON ocpp_command (number) WHERE ended_by IS NULL;
CREATE INDEX IF NOT EXISTS ocpp_command_evse ON ocpp_command (evse_uid, state);
CREATE INDEX IF NOT EXISTS ocpp_command_reference ON ocpp_command (provider, reference);
CREATE TABLE IF NOT EXISTS late_command (
    provider TEXT COLLATE NOCASE, number INTEGER, PRIMARY KEY (provider, number)) WITHOUT ROWID;
CREATE TABLE IF NOT EXISTS ocpp_remote_start (
    remote_start INTEGER PRIMARY KEY AUTOINCREMENT, provider TEXT COLLATE NOCASE, number INTEGER, token_type TEXT,
    UNIQUE (provider, number));

-- ocpp/transactions.py (id_tag is the transactionId of one of OCPP 2.0.1)
CREATE TABLE IF NOT EXISTS ocpp_transaction (
    number INTEGER PRIMARY KEY AUTOINCREMENT, charge_point TEXT NOT NULL, connector INTEGER NOT NULL,
    started INTEGER NOT NULL, id_tag TEXT NOT NULL, meter_start INTEGER NOT NULL, session_id TEXT UNIQUE,
    state TEXT NOT NULL, UNIQUE (charge_point, connector, started, id_tag, meter_start));
CREATE INDEX IF NOT EXISTS ocpp_transaction_running ON ocpp_transaction (charge_point)
    WHERE state IN ('new', 'charging', 'refused');

-- ocpp/told.py (moments are milliseconds since 1970)
CREATE TABLE IF NOT EXISTS ocpp_told (
    charge_point TEXT, transaction_id TEXT, number INTEGER NOT NULL UNIQUE, started_at INTEGER,
    connector INTEGER NOT NULL, token_uid TEXT, token_type TEXT, remote_start INTEGER, begun_by INTEGER,
    charging_at INTEGER, ended_at INTEGER, register TEXT, register_at TEXT,
    PRIMARY KEY (charge_point, transaction_id)) WITHOUT ROWID;

-- ocpp/readings.py
CREATE TABLE IF NOT EXISTS ocpp_reading (number INTEGER PRIMARY KEY, at INTEGER NOT NULL, register TEXT NOT NULL);
CREATE TABLE IF NOT EXISTS ocpp_dropped_reading (at TEXT NOT NULL, evse_uid TEXT NOT NULL, text TEXT NOT NULL);

-- admin/outstanding.py
CREATE TABLE IF NOT EXISTS push_that_waits (
    receiver TEXT, subject TEXT, request INTEGER, PRIMARY KEY (receiver, subject));
CREATE TABLE IF NOT EXISTS command_given (
    request INTEGER PRIMARY KEY, operator TEXT, kind TEXT, body TEXT, response TEXT, result TEXT);
CREATE TABLE IF NOT EXISTS owed_for (
    operator TEXT, record TEXT, currency TEXT, amount INTEGER, PRIMARY KEY (operator, record));

-- admin/answers.py
CREATE TABLE IF NOT EXISTS answer_given (
    path TEXT, key TEXT, digest TEXT NOT NULL, at REAL NOT NULL, status INTEGER NOT NULL, body TEXT NOT NULL,
    PRIMARY KEY (path, key)) WITHOUT ROWID;
CREATE INDEX IF NOT EXISTS answer_given_at ON answer_given (at);
