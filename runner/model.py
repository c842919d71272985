"""Answers the runner's requests with the model of document 01, whose folder is the first argument.

Request: a byte, 0 for a draft and 1 for a merge; compiled object, prelude or assembled object, block file, each after its length (4 bytes), and the output's room (8
bytes); for a merge then the path after its length, flag and mode (4 bytes each). Answer: number (4 bytes); where it is 0 the draft or the merged object after its
length (4 bytes), else object (4 bytes) and place (8 bytes). Each merged object is held against demand 3 as well: one that fails it gets the number 99. All numbers
have the most significant byte first.
"""
import struct
import sys

sys.path.insert(0, sys.argv[1])
import demand3  # noqa: E402
import model  # noqa: E402

requests, answers = sys.stdin.buffer, sys.stdout.buffer


def word(size=4):
    return int.from_bytes(requests.read(size), 'big')


def part():
    return requests.read(word())


def merged(compiled, assembled, blocks, room):
    job = compiled, assembled, blocks, part(), word(), word()
    answer = model.merge(*job, room)
    if answer[0] == 'ok':
        try:
            demand3.check(*job, answer[1])
        except AssertionError:
            return 'refused', 99, 0, 0
    return answer


while requests.peek(1):
    kind, *files, room = word(1), part(), part(), part(), word(8)
    answer = merged(*files, room) if kind else model.draft(*files, room)
    if answer[0] == 'ok':
        answers.write(struct.pack('>II', 0, len(answer[1])) + answer[1])
    else:
        answers.write(struct.pack('>IIQ', *answer[1:]))
    answers.flush()
