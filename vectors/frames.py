#!/usr/bin/env python3
"""Makes samples/frames.tsmf and samples/short.tsmf by J.183's layout alone, at both sizes: three frames of two streams and the header behind
them; and the first stream as it must come out of the former. Shares nothing with the crates. Run it at the repository's root."""
import collections
import pathlib

PID, PACKET = 0x1FF0, 188

# The slots of a frame that carry packets, the streams of its header, the bits of a slot's number, the private bytes, and the frame type.
Size = collections.namedtuple("Size", "slots streams bits private frame_type")
LONG, SHORT = Size(52, 15, 4, 85, 1), Size(40, 7, 3, 131, 3)


def crc(data):
    register = 0xFFFFFFFF
    for byte in data:
        register ^= byte << 24
        for _ in range(8):
            register = (register << 1 ^ (0x04C11DB7 if register >> 31 else 0)) & 0xFFFFFFFF
    return register


def packet(pid, count, text):
    body = text.encode().ljust(PACKET - 4, b".")
    return bytes([0x47, pid >> 8, pid & 255, 0x10 | count % 16]) + body


def header(size, counter, numbers):
    bits = f"{0x47:08b}000{PID:013b}0001{counter % 16:04b}111{0x1A86:013b}"
    bits += f"{0:03b}{0:01b}{size.frame_type:04b}" + "11".ljust(size.streams, "0") + "1"  # version, allocation type, frame type, availability, reserved
    for stream in range(1, size.streams + 1):
        bits += f"{stream if stream < 3 else 0:016b}{0x7FE0 if stream < 3 else 0:016b}"
    bits += "00" * size.streams + "1" + "0"  # statuses, reserved, emergency
    bits += "".join(f"{n:0{size.bits}b}" for n in numbers)
    data = int(bits, 2).to_bytes(len(bits) // 8, "big") + bytes(size.private)
    return data + crc(data[4:]).to_bytes(4, "big")


def frames(size):
    null = bytes([0x47, 0x1F, 0xFF, 0x10]) + bytes([0xFF]) * 184
    stream, out, count = [], b"", {1: 0, 2: 0}
    for frame in range(3):
        numbers = [1 if slot % 3 == 1 else 2 if slot % 3 == 2 else 0 for slot in range(1, size.slots + 1)]
        slots = []
        for n in numbers:
            if n == 0:
                slots.append(null)
                continue
            slots.append(packet(0x100 * n, count[n], f"stream {n}, packet {count[n]}, frame {frame} "))
            count[n] += 1
            if n == 1:
                stream.append(slots[-1])
        out += header(size, frame, numbers) + b"".join(slots)
    return out + header(size, 3, [0] * size.slots), b"".join(stream)


def main():
    out, stream = frames(LONG)
    pathlib.Path("samples/frames.tsmf").write_bytes(out)
    tool = pathlib.Path("crates/tools")
    (tool / "data").mkdir(exist_ok=True)
    (tool / "data/frames.tsmf").write_bytes(out)
    (tool / "stdout").write_bytes(stream)
    (tool / "args").write_text("demux\n0x1FF0\n1\nframes.tsmf\n")
    pathlib.Path("samples/short.tsmf").write_bytes(frames(SHORT)[0])


main()
