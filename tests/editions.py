"""The version that the file VERSION has, and the line in which each program tells it."""
import os

ROOT = os.path.dirname(os.path.dirname(os.path.abspath(__file__)))

with open(os.path.join(ROOT, 'VERSION'), encoding='ascii') as file:
    VERSION = file.read().strip()


def version_line(program):
    document, request, _ = map(int, VERSION.split('.'))
    return f'{program} {VERSION} (rules: document {document:02} with requests 1 to {request})\n'.encode()
