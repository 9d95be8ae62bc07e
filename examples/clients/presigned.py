#!/usr/bin/env python3
"""A link to one object of s3gate for a time: made with a key, used without one.

    examples/clients/presigned.py http://127.0.0.1:8080 photos k [SECONDS]

prints a URL by which whoever has it may read the object for so many seconds, 3600 unless given, 604800 at most:

    curl -o k "$(examples/clients/presigned.py http://127.0.0.1:8080 photos k)"

The key is taken from the environment or ~/.aws, as always. A browser may ask for parts of the object by a Range header, since
`host` alone is signed. `client.generate_presigned_url("put_object", ...)` makes a link that takes a body the same way.
"""
import sys

from boto3_client import client


def link(endpoint, bucket, key, seconds=3600, operation="get_object"):
    """The URL, which nobody was asked for: it is signed here."""
    return client(endpoint).generate_presigned_url(operation, Params={"Bucket": bucket, "Key": key}, ExpiresIn=seconds)


if __name__ == "__main__":
    if len(sys.argv) not in (4, 5):
        sys.exit(__doc__)
    print(link(*sys.argv[1:4], *map(int, sys.argv[4:])))
