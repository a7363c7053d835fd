#!/usr/bin/env python3
"""Runs the requests of a text file from a fresh network and prints document 01's line for each: session.py SCHEME REQUESTS"""
import sys
from array import array

import gatekeeper
from gatekeeper import Answer


def answer_line(scheme, network, name, numbers):
    """What is printed of a request after its position."""
    if name == 'list':
        output = array('H', bytes(512))
        answer, count = gatekeeper.list(scheme, network, *numbers, output)
        return ' '.join(map(str, [answer] + output[:count].tolist() if answer == Answer.GRANTED else [answer]))
    call = {'event': gatekeeper.event, 'set': gatekeeper.set, 'find': gatekeeper.find, 'view': gatekeeper.view}[name]
    return str(call(scheme, network, *numbers))


def main(scheme_file, requests_file):
    with open(scheme_file, 'rb') as file:
        scheme = file.read()
    if gatekeeper.check(scheme) != Answer.GRANTED:
        sys.exit('the scheme is refused')
    network = bytearray(gatekeeper.network_length(scheme))
    if gatekeeper.fresh(scheme, network) != Answer.GRANTED:
        sys.exit('no fresh network')
    with open(requests_file) as file:
        for position, line in enumerate(file, 1):
            name, *numbers = line.split()
            print(position, answer_line(scheme, network, name, [int(number) for number in numbers]))


if __name__ == '__main__':
    main(*sys.argv[1:])
