#!/usr/bin/env python3
"""Draws docs/frames.svg: a frame, a super frame, and the path of a packet. Run it at the repository's root."""
W, H = 1000, 700
out = []


def add(text):
    out.append("  " + text)


def box(x, y, w, h, fill, label="", size=13, stroke="#333"):
    add(f'<rect x="{x}" y="{y}" width="{w}" height="{h}" fill="{fill}" stroke="{stroke}"/>')
    if label:
        text(x + w / 2, y + h / 2 + size * 0.35, label, size, "middle")


def text(x, y, label, size=13, anchor="start", weight="normal", fill="#111"):
    add(f'<text x="{x}" y="{y}" font-size="{size}" text-anchor="{anchor}" font-weight="{weight}" fill="{fill}">{label}</text>')


def arrow(x1, y1, x2, y2):
    add(f'<line x1="{x1}" y1="{y1}" x2="{x2}" y2="{y2}" stroke="#333" stroke-width="1.5" marker-end="url(#tip)"/>')


BLUE, GREEN, GREY, RED, SAND = "#9ecae1", "#a1d99b", "#eeeeee", "#fc9272", "#fdd49e"

# a frame
text(20, 30, "A frame: 53 packets of 188 bytes, 9,964 bytes", 17, weight="bold")
y, w = 45, 58
box(20, y, 96, 42, SAND, "header")
for i, (fill, label) in enumerate([(BLUE, "1"), (GREEN, "2"), (GREY, "–"), (BLUE, "1"), (GREEN, "2"), (GREY, "–"), (BLUE, "1"), (GREEN, "2")]):
    box(116 + w * i, y, w, 42, fill, label)
box(116 + w * 8, y, 90, 42, "#ffffff", "…")
for i, (fill, label) in enumerate([(GREY, "–"), (BLUE, "1"), (GREEN, "2"), (GREY, "–")]):
    box(206 + w * (8 + i), y, w, 42, fill, label)
text(68, 104, "slot 0", 11, "middle")
text(145, 104, "slot 1", 11, "middle")
text(203, 104, "slot 2", 11, "middle")
text(206 + w * 11.5, 104, "slot 52", 11, "middle")
text(20, 128, "The header gives each slot the relative number of the stream whose packet it carries (stream 1, stream 2), or 0 for none (–, a null packet).", 12)

# the header
text(20, 168, "The header's 188 bytes", 15, weight="bold")
parts = [("packet", "0–3", 70), ("sync", "4–5", 60), ("version, types", "6", 96), ("available", "7–8", 74), ("TS_id, network id of 15 streams", "9–68", 216), ("statuses", "69–72", 74), ("52 slots' numbers", "73–98", 124), ("private data", "99–183", 150), ("CRC", "184–187", 76)]
x = 20
for label, place, width in parts:
    box(x, 180, width, 34, SAND, label, 11)
    text(x + width / 2, 230, place, 11, "middle")
    x += width

# a super frame
text(20, 278, "Super frames: one stream over bonded carriers", 17, weight="bold")
for row, (name, frames) in enumerate([("carrier 1, 64 QAM", 3), ("carrier 2, 256 QAM", 4)]):
    y = 296 + 56 * row
    text(20, y + 26, name, 13)
    width = 720 / frames
    for f in range(frames):
        box(160 + width * f, y, width, 40, "#ffffff")
        box(160 + width * f, y, 18, 40, SAND)
        text(160 + width * f + width / 2 + 9, y + 25, f"frame position {f + 1}", 12, "middle")
text(896, 322, "3 frames", 12)
text(896, 378, "4 frames", 12)
text(20, 414, "Both last as long. Place p of a carrier with F frames comes before place q of one with G where p × G &lt; q × F; a tie goes to the lower carrier.", 12)

# the path of a packet
text(20, 460, "The path of a packet", 17, weight="bold")
y = 480
box(20, y, 120, 50, BLUE, "stream 1")
box(20, y + 70, 120, 50, GREEN, "stream 2")
box(200, y + 20, 130, 80, "#ffffff")
text(265, y + 50, "composer", 13, "middle", "bold")
text(265, y + 68, "begin, put, close", 11, "middle")
text(265, y + 84, "(mux)", 11, "middle")
arrow(140, y + 25, 198, y + 50)
arrow(140, y + 95, 198, y + 70)
box(390, y + 40, 22, 40, SAND)
for i, fill in enumerate([BLUE, GREEN, GREY, BLUE, GREEN]):
    box(412 + 22 * i, y + 40, 22, 40, fill)
box(522, y + 40, 22, 40, SAND)
arrow(330, y + 60, 388, y + 60)
text(467, y + 28, "frames; packets may be lost", 12, "middle")
add(f'<line x1="456" y1="{y + 34}" x2="478" y2="{y + 86}" stroke="#cb181d" stroke-width="2.5"/>')
add(f'<line x1="478" y1="{y + 34}" x2="456" y2="{y + 86}" stroke="#cb181d" stroke-width="2.5"/>')
arrow(544, y + 60, 598, y + 60)
box(600, y + 20, 150, 80, "#ffffff")
text(675, y + 44, "receiver", 13, "middle", "bold")
text(675, y + 62, "receive: keeps 52 packets", 11, "middle")
text(675, y + 77, "until the next good header", 11, "middle")
text(675, y + 92, "vouches for them", 11, "middle")
arrow(750, y + 45, 818, y + 30)
arrow(750, y + 75, 818, y + 95)
box(820, y + 5, 150, 50, BLUE, "hand out: stream 1")
box(820, y + 70, 150, 50, "#ffffff")
text(895, y + 91, "frame dropped: short,", 12, "middle")
text(895, y + 108, "jump, long or broken", 12, "middle")
text(20, y + 160, "A frame of which a packet is missing is dropped as a whole: what comes out is a stream's own packets in their order, and never those of two frames mixed.", 12)
text(20, y + 182, "Bonded: spread puts a stream's packets into the slots of all carriers' super frames in their order, gather takes them out again (bond, unbond).", 12)

svg = [f'<svg xmlns="http://www.w3.org/2000/svg" viewBox="0 0 {W} {H}" width="{W}" height="{H}" font-family="sans-serif">',
       '  <defs><marker id="tip" viewBox="0 0 10 10" refX="9" refY="5" markerWidth="7" markerHeight="7" orient="auto"><path d="M0 0L10 5L0 10z" fill="#333"/></marker></defs>',
       f'  <rect width="{W}" height="{H}" fill="#ffffff"/>', *out, "</svg>"]
open("docs/frames.svg", "w").write("\n".join(svg) + "\n")
