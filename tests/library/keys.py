"""The keys of the operator and of each book's broker, and the seed of what the program draws at random."""
import re

OPERATOR = "11111111-1111-1111-1111-111111111111"
BROKER = "22222222-2222-2222-2222-222222222222"
SEED = "0" * 64
# The field of a request that lets a broker in.
KEY = f"Pledge-Key: {BROKER}"
# The form of a key, and of a receipt's secret.
SECRET = re.compile(r"[0-9a-f]{8}(?:-[0-9a-f]{4}){3}-[0-9a-f]{12}")
