/* What Redis does at once for a fleet: scripts, of which nothing comes between. */

const NOW = "local t = redis.call('TIME') local now = t[1] * 1000 + math.floor(t[2] / 1000) ";

/** By their names. */
export const SCRIPTS = Object.freeze({
  /* KEYS id, home, takers, hold, own generation, next one, deleted; ARGV me, lease, own entry or "",
     document. Nobody takes changes in one that was deleted. An own generation that isn't there is put back. Where no next one is, and no hold, it takes
     changes for the time of a lease, and is home if no other is. */
  look: `${NOW}
if redis.call('SISMEMBER', KEYS[7], ARGV[4]) == 1 then return {'deleted'} end
local back = 0
if ARGV[3] ~= '' then
  local there = redis.call('GET', KEYS[5])
  if not there then redis.call('SET', KEYS[5], ARGV[3]) back = 1
  elseif there ~= ARGV[3] then return {'other', there} end
end
local next, hold = redis.call('GET', KEYS[6]), redis.call('GET', KEYS[4])
local home = redis.call('GET', KEYS[2])
if not next and not hold then
  redis.call('ZADD', KEYS[3], now + ARGV[2], ARGV[1])
  redis.call('PEXPIRE', KEYS[3], 2 * ARGV[2])
  if not home then redis.call('SET', KEYS[2], ARGV[1], 'PX', ARGV[2]) home = ARGV[1]
  elseif home == ARGV[1] then redis.call('PEXPIRE', KEYS[2], ARGV[2]) end
end
return {'ok', redis.call('GET', KEYS[1]) or '', back, next or '', hold or '', home or ''}`,

  /* KEYS home, takers; ARGV me. */
  leave: `redis.call('ZREM', KEYS[2], ARGV[1])
if redis.call('GET', KEYS[1]) == ARGV[1] then redis.call('DEL', KEYS[1]) end
return 1`,

  /* KEYS id, home, hold; ARGV me, id, token, ms. Only its home may hold a document. */
  hold: `local home = redis.call('GET', KEYS[2])
if redis.call('GET', KEYS[1]) ~= ARGV[2] or home ~= ARGV[1] then return {0, home or ''} end
if not redis.call('SET', KEYS[3], ARGV[3], 'NX', 'PX', ARGV[4]) then return {0, redis.call('GET', KEYS[3])} end
return {1, home}`,

  /* KEYS takers, hold; ARGV me, token. How many others take changes; -1 where the hold is over. */
  takers: `${NOW}
if redis.call('GET', KEYS[2]) ~= ARGV[2] then return -1 end
local count = redis.call('ZCOUNT', KEYS[1], now, '+inf')
local own = redis.call('ZSCORE', KEYS[1], ARGV[1])
if own and tonumber(own) >= now then count = count - 1 end
return count`,

  /* KEYS hold; ARGV token. */
  release: `if redis.call('GET', KEYS[1]) == ARGV[1] then redis.call('DEL', KEYS[1]) end
return 1`,

  /* KEYS id, hold, next generation; ARGV id, token, entry. The entry that is there then, or false where
     the fleet or the hold is gone. */
  decide: `if redis.call('GET', KEYS[1]) ~= ARGV[1] or redis.call('GET', KEYS[2]) ~= ARGV[2] then
  return redis.call('GET', KEYS[3])
end
redis.call('SET', KEYS[3], ARGV[3], 'NX')
return redis.call('GET', KEYS[3])`,

  /* KEYS id, hold, deleted; ARGV id, token, document. Whether it is deleted now. */
  remove: `local id, held = redis.call('GET', KEYS[1]), redis.call('GET', KEYS[2])
if id ~= ARGV[1] or held ~= ARGV[2] then return 0 end
redis.call('SADD', KEYS[3], ARGV[3])
return 1`,
});
