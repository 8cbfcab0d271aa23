"""Scripts in the line language of cookie_jar, and saved cookies, as strings. Random choices have a fixed seed."""
import random

NOW = 'now 2026-01-01T00:00:00Z\n'
CLEAR = 'clear\n'


def host_count(cookies, per_host):
    return max(1, cookies // per_host)


def sets(cookies, per_host, suffix='', domain='com', name='c'):
    """Sets `cookies` cookies, one at each host in turn until each host has `per_host`. Their names begin with `name`."""
    hosts = host_count(cookies, per_host)
    return ''.join(
        f'set http://h{number % hosts}.{domain}/ {name}{number // hosts}={number}{suffix}; Max-Age=86400\n'
        for number in range(cookies))


def gets(cookies, per_host, count):
    """Gets the cookies of `count` random hosts."""
    hosts = host_count(cookies, per_host)
    generator = random.Random(2)
    return ''.join(f'get http://h{generator.randrange(hosts)}.com/a/b\n' for _ in range(count))


def gets_in_turn(hosts, count, domain):
    return ''.join(f'get http://h{number % hosts}.{domain}/a/b\n' for number in range(count))


def saved_lines(count, is_one_key=False):
    """Lines of JSON, as --convert reads them: 20 cookies a host, or the same cookie `count` times with different values."""
    keys = ((0, 0) if is_one_key else divmod(number, 20) for number in range(count))
    return ''.join(
        f'{{"raw_cookie":"c{name}={number}; Secure","path":["/",false],"domain":{{"HostOnly":"h{host}.com"}},'
        f'"expires":{{"AtUtc":"2100-08-03T00:38:37Z"}}}}\n' for number, (host, name) in enumerate(keys))


def removals(cookies, per_host):
    """Removes all cookies, in random order."""
    hosts = host_count(cookies, per_host)
    numbers = list(range(cookies))
    random.Random(1).shuffle(numbers)
    return ''.join(f'remove h{number % hosts}.com / c{number // hosts}\n' for number in numbers)
