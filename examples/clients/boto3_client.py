"""A boto3 client for s3gate: path style, and no chunked signatures.

    from boto3_client import client, transfer
    s3 = client("http://127.0.0.1:8080")
    s3.upload_file("photo.jpg", "photos", "photo.jpg", Config=transfer)
"""
import boto3
from boto3.s3.transfer import TransferConfig
from botocore.config import Config

# boto3's own configuration works too: parts of 8 MiB, from 8 MiB on. s3gate takes 10,000 parts of up to 16 MiB each, and larger parts
# are fewer requests.
transfer = TransferConfig(multipart_threshold=16 << 20, multipart_chunksize=16 << 20)

# Since 1.36 botocore sends a checksum that nobody asked for, over TLS in chunks, which s3gate answers 501 NotImplemented. Older
# ones know no such option, and need none.
CHECKSUMS = ("request_checksum_calculation", "response_checksum_validation")


def client(endpoint, **more):
    """A client of S3 at that place; the key is taken from the environment or ~/.aws, as always."""
    config = Config(
        signature_version="s3v4",
        s3={"addressing_style": "path"},
        **{name: "when_required" for name in CHECKSUMS if name in Config.OPTION_DEFAULTS},
    )
    return boto3.client("s3", endpoint_url=endpoint, region_name="us-east-1", config=config, **more)
