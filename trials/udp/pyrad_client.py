"""Logs users in with pyrad, and prints what it makes of each Access-Accept: DICTIONARY PORT SECRET PASSWORD NAME ..

A line of JSON for each user has the attributes by name, each with its values. Numbers, texts and addresses are as pyrad decodes them, octets
in hex. pyrad leaves a tag in the value.
"""

import json
import sys

from pyrad.client import Client
from pyrad.dictionary import Dictionary


def printable(value):
    return value.hex() if isinstance(value, bytes) else value


def accepted(client, name, password):
    """What an Access-Accept has, by the names of the dictionary, in order."""
    request = client.CreateAuthPacket(User_Name=name)
    request["User-Password"] = request.PwCrypt(password)
    reply = client.SendPacket(request)
    return [reply.code, [[key, [printable(value) for value in reply[key]]] for key in reply.keys()]]


dictionary, port, secret, password, *names = sys.argv[1:]
client = Client(server="127.0.0.1", authport=int(port), secret=secret.encode(), dict=Dictionary(dictionary))
for name in names:
    print(json.dumps(accepted(client, name, password)))
