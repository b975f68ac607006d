-- What a line's service has in the store of its panel, beside the panel's tables: keys with their outcomes, and events. docs/BROKER.md tells what
-- each part means. Moments are milliseconds since 1970.
CREATE TABLE IF NOT EXISTS broker (
    one INTEGER PRIMARY KEY CHECK (one = 1),
    version INTEGER NOT NULL,
    owner TEXT NOT NULL
);
CREATE TABLE IF NOT EXISTS broker_keys (
    key TEXT PRIMARY KEY,
    device INTEGER NOT NULL,
    number INTEGER NOT NULL CHECK (number >= 1),
    text TEXT NOT NULL,
    state TEXT NOT NULL CHECK (state IN ('waiting', 'submitted', 'doubt', 'ended')),
    outcome TEXT CHECK (outcome IN ('settled', 'expired', 'in doubt', 'refused', 'forgotten')),
    detail TEXT,
    told INTEGER CHECK (told IS NULL OR outcome IS NOT NULL),
    UNIQUE (device, number),
    CHECK ((state = 'ended') = (outcome IS NOT NULL))
) WITHOUT ROWID;
CREATE INDEX IF NOT EXISTS broker_untold_keys ON broker_keys (device, number) WHERE told IS NULL;
CREATE TRIGGER IF NOT EXISTS broker_one_outcome BEFORE UPDATE OF outcome ON broker_keys
WHEN OLD.outcome IS NOT NULL AND NEW.outcome IS NOT OLD.outcome
BEGIN
    SELECT RAISE(ABORT, 'a key has one outcome');
END;
CREATE TABLE IF NOT EXISTS broker_events (
    device INTEGER NOT NULL,
    number INTEGER NOT NULL CHECK (number >= 1),
    text TEXT NOT NULL,
    since INTEGER NOT NULL,
    marked INTEGER NOT NULL CHECK (marked IN (0, 1)),
    told INTEGER NOT NULL DEFAULT 0 CHECK (told IN (0, 1)),
    PRIMARY KEY (device, number)
) WITHOUT ROWID;
CREATE INDEX IF NOT EXISTS broker_untold_events ON broker_events (device, number) WHERE told = 0;
CREATE TRIGGER IF NOT EXISTS broker_old_events AFTER INSERT ON broker_events
BEGIN
    DELETE FROM broker_events
    WHERE device = NEW.device AND number <= NEW.number - (SELECT kept_events FROM store) AND told = 1;
END;
