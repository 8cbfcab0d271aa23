"""Two spiders of Scrapy that share a login through Redis, from one machine or several.

    python3 spiders.py login http://example.com/login
    python3 spiders.py visit http://example.com/

The second one has the cookies of the first. REDIS_URL names the Redis, else it is that of this machine.
"""
import os
import sys

import redis
import scrapy
from scrapy.crawler import CrawlerProcess

from cookie_store.sites import RedisValues, SiteStore


def shared_store(key):
    """Return the store of the requests with a key `cookiejar`, or of those without one."""
    client = redis.Redis.from_url(os.environ.get('REDIS_URL', 'redis://localhost'))
    return SiteStore(RedisValues(client, 'cookies:' if key is None else f'cookies of {key}:'))


class Spider(scrapy.Spider):
    custom_settings = {
        'DOWNLOADER_MIDDLEWARES': {
            'scrapy.downloadermiddlewares.cookies.CookiesMiddleware': None,
            'cookie_store.scrapy.StoreCookiesMiddleware': 700,
        },
        'COOKIES_STORE': shared_store,
        'LOG_LEVEL': 'WARNING',
        'TELNETCONSOLE_ENABLED': False,
    }


class Login(Spider):
    name = 'login'

    def parse(self, response):
        print('logged in')


class Visit(Spider):
    name = 'visit'

    def parse(self, response):
        print(response.text)


def main():
    spiders = {spider.name: spider for spider in (Login, Visit)}
    if len(sys.argv) != 3 or sys.argv[1] not in spiders:
        sys.exit('usage: spiders.py login|visit URL')
    process = CrawlerProcess()
    process.crawl(spiders[sys.argv[1]], start_urls=[sys.argv[2]])
    process.start()


main()
