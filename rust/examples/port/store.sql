-- The store of a panel's or a device's program: where devices are, orders, and events. docs/STORE.md tells what each part means.
-- Each part below brings a store of the version before to its own, in one transaction. A new store gets all of them.

-- version 1
PRAGMA application_id = 1330857040;
CREATE TABLE version (number INTEGER PRIMARY KEY, since INTEGER NOT NULL);
CREATE TABLE store (
    one INTEGER PRIMARY KEY CHECK (one = 1),
    role TEXT NOT NULL CHECK (role IN ('panel', 'device')),
    line TEXT,
    kept_orders INTEGER NOT NULL DEFAULT 1000 CHECK (kept_orders >= 1),
    kept_events INTEGER NOT NULL DEFAULT 1000 CHECK (kept_events >= 1)
);
CREATE TABLE devices (
    name INTEGER PRIMARY KEY CHECK (name BETWEEN 0 AND 126),
    vendor TEXT,
    model INTEGER,
    serial INTEGER,
    CHECK ((vendor IS NULL) = (model IS NULL) AND (model IS NULL) = (serial IS NULL))
);
CREATE TABLE places (
    device INTEGER NOT NULL REFERENCES devices (name),
    rank INTEGER NOT NULL CHECK (rank BETWEEN 0 AND 2),
    address INTEGER NOT NULL CHECK (address BETWEEN 0 AND 126),
    rate INTEGER NOT NULL CHECK (rate BETWEEN 1 AND 4294967295),
    PRIMARY KEY (device, rank)
) WITHOUT ROWID;
CREATE TRIGGER own_address BEFORE INSERT ON places
WHEN EXISTS (SELECT 1 FROM places WHERE address = NEW.address AND device <> NEW.device)
BEGIN
    SELECT RAISE(ABORT, 'another device may be at that address');
END;
CREATE TRIGGER own_address_again BEFORE UPDATE ON places
WHEN EXISTS (SELECT 1 FROM places WHERE address = NEW.address AND device <> NEW.device)
BEGIN
    SELECT RAISE(ABORT, 'another device may be at that address');
END;
CREATE TABLE orders (
    device INTEGER NOT NULL REFERENCES devices (name),
    number INTEGER NOT NULL CHECK (number >= 1),
    text TEXT NOT NULL,
    until INTEGER NOT NULL,
    state TEXT NOT NULL DEFAULT 'open' CHECK (state IN ('open', 'settled', 'doubt', 'back', 'refused')),
    answer TEXT,
    told INTEGER NOT NULL DEFAULT 0 CHECK (told IN (0, 1)),
    PRIMARY KEY (device, number)
) WITHOUT ROWID;
CREATE INDEX open_orders ON orders (device, number) WHERE state = 'open' OR told = 0;
CREATE TRIGGER old_orders AFTER INSERT ON orders
BEGIN
    DELETE FROM orders WHERE device = NEW.device AND number <= NEW.number - (SELECT kept_orders FROM store) AND state <> 'open' AND told = 1;
END;
CREATE TABLE events (
    number INTEGER PRIMARY KEY,
    device INTEGER NOT NULL REFERENCES devices (name),
    text TEXT NOT NULL,
    since INTEGER NOT NULL,
    again INTEGER NOT NULL CHECK (again IN (0, 1)),
    handled INTEGER NOT NULL DEFAULT 0 CHECK (handled IN (0, 1))
);
CREATE INDEX new_events ON events (number) WHERE handled = 0;
CREATE INDEX last_events ON events (device, number);
CREATE TRIGGER old_events AFTER INSERT ON events
BEGIN
    DELETE FROM events WHERE device = NEW.device AND number <= NEW.number - (SELECT kept_events FROM store) AND handled = 1;
END;
INSERT INTO version VALUES (1, CAST(strftime('%s', 'now') AS INTEGER));
