<?php
// Sessions of PHP that end, though items don't expire. A session has its end in it, and its key is noted in an item of
// the hour of that end, so that what has ended can be deleted.
// usage: php -c php_sessions.ini php_sessions.php      does what requests do, and again after each line of its input

const LIFETIME = 8 * 3600;      // seconds
const HOUR = 3600;
const SLACK = 600;              // by which the machines' clocks may differ, and a request may take
const PARTS = 16;               // items that an hour's keys are spread over: each has room for 1 MiB of keys

/** In place of session_start: a session that has ended begins empty, and each use prolongs it. */
function session_begin(int $lifetime = LIFETIME): void
{
    if (!session_start()) {
        throw new Exception('no answer');       // and not a page on which the user is logged out
    }
    if (isset($_SESSION['end']) && $_SESSION['end'] <= time()) {
        $_SESSION = [];
        session_regenerate_id(true);            // so that none is stored again by an id that has ended
    }
    $end = time() + $lifetime;
    $_SESSION = ['end' => $end] + $_SESSION;    // it stands first
    $_SESSION['end'] = $end;
    $note = intdiv($end, HOUR) . ' ' . session_id();
    if (($_SESSION['note'] ?? '') !== $note) {
        note(intdiv($end, HOUR), 'memc.sess.key.' . session_id());
        $_SESSION['note'] = $note;
    }
}

function cache(): Memcached
{
    static $cache = null;
    if (!$cache) {
        $cache = new Memcached();
        $cache->setOption(Memcached::OPT_COMPRESSION, false);   // else it appends nothing
        $cache->addServer(...explode(':', ini_get('session.save_path')));
    }
    return $cache;
}

/** Notes the key of a session under the hour in which it ends. */
function note(int $hour, string $key): void
{
    $index = "ends:$hour:" . crc32($key) % PARTS;
    for ($tries = 0; !cache()->append($index, "$key\n"); $tries++) {
        if (cache()->getResultCode() == Memcached::RES_NOTSTORED) {
            cache()->add($index, '');           // there is none yet
        } elseif ($tries == 2) {                // again after a failure: a key may be noted twice
            throw new Exception(cache()->getResultMessage());
        }
    }
}

/** Deletes the sessions that ended in this hour. For cron, once an hour: sweep(intdiv(time() - SLACK, HOUR) - 1). */
function sweep(int $hour): int
{
    $count = 0;
    for ($part = 0; $part < PARTS; $part++) {
        foreach (array_unique(explode("\n", got("ends:$hour:$part"))) as $key) {
            $is_there = $key && preg_match('/^end\|i:(\d+);/', got($key), $found);
            if ($is_there && intdiv((int) $found[1], HOUR) <= $hour) {
                $count += cache()->delete($key);
            }
        }
        cache()->delete("ends:$hour:$part");
    }
    return $count;
}

/** The data of an item, and '' if there is none. */
function got(string $key): string
{
    $data = cache()->get($key);
    if ($data === false && cache()->getResultCode() != Memcached::RES_NOTFOUND) {
        throw new Exception(cache()->getResultMessage());
    }
    return (string) $data;
}

// --- a trial

ini_set('session.use_cookies', 0);              // there is no browser here
ini_set('session.cache_limiter', '');

/** What a request with this session id sees of its user, and who it is from then on. */
function request(string $id, ?string $user, int $lifetime = LIFETIME): ?string
{
    session_id($id);
    try {
        session_begin($lifetime);
        $seen = $_SESSION['user'] ?? null;
        $_SESSION['user'] = $user ?? $seen;
        return $seen;
    } finally {
        session_write_close();
    }
}

do {
    try {
        [$alice, $bob] = [bin2hex(random_bytes(16)), bin2hex(random_bytes(16))];
        $seen = [request($alice, 'alice'), request($alice, null)];
        $seen = [...$seen, request($bob, 'bob', -2 * HOUR), request($bob, null, -2 * HOUR)];
        $hour = intdiv(time(), HOUR);           // Bob's session ended two hours before
        $seen[] = sweep($hour - 3) + sweep($hour - 2) >= 1;
        $seen[] = [got("memc.sess.key.$bob"), got("memc.sess.key.$alice") !== ''];
        $said = $seen === [null, 'alice', null, null, true, ['', true]] ? 'works' : 'failed: ' . json_encode($seen);
    } catch (Exception $error) {
        $said = "failed: {$error->getMessage()}";
    }
    fwrite(STDOUT, "$said\n");                 // and not echo, after which no session begins
} while (fgets(STDIN) !== false);
