# %% [markdown]
# # A house's bill, and a picture of a film
#
# Three studios hold one cutscene. Each packed it under its own key; one of them typed another's key, and two of its digits
# wrong. How many copies does the house need, and what does each studio bear? Needs the package `usm`
# (`pip install ./python`); every cell can be run by itself, after those above it, and the whole as
# `python3 examples/notebook.py FOLDER`.

# %%
import sys
from pathlib import Path
from xml.sax.saxutils import escape

import usm

folder = Path(sys.argv[1] if len(sys.argv) > 1 else "target/notebook")
folder.mkdir(parents=True, exist_ok=True)

# %% [markdown]
# ## The films
# The same picture and sound three times, each film masked under another key. A house would have them already.

# %%
picture = bytes(at * 7 % 251 for at in range(150_000))
sound = bytes(at * 3 % 241 for at in range(40_000))
keys = {10: 0x7F123456789ABCDE, 20: 0x0123456789ABCDEF, 30: 0x00000000DEADBEEF}
for tenant, key in keys.items():
    film = usm.pack("lark", picture, sound, video_codec=1, audio_codec=2, key=key)
    (folder / f"lark-{tenant}.usm").write_bytes(film)

# %% [markdown]
# ## Which digits of a key count
# Where a bit of a key is not shown, the key may be typed wrong there, and nothing changes.

# %%
with usm.open(folder / "lark-10.usm") as film:
    print(f"{film.name.decode()}: {film.video_kind} and {film.audio_kind}, {film.size} bytes")
    print(f"the key shows in the digits {film.key_bits:016X}")

# %% [markdown]
# ## The bill
# Tenant 20 also holds the film of tenant 10, under a key of which two digits are wrong, and holds its own film as it is
# stored. A file of holdings, as `usm bill` takes it, can be given in place of the list.

# %%
holdings = [(tenant, key, folder / f"lark-{tenant}.usm") for tenant, key in keys.items()]
holdings += [(20, 0xFF123456789ABCDE, folder / "lark-10.usm"), (20, None, folder / "lark-20.usm")]
bill = usm.bill(holdings)

for line in bill.lines:
    print(f"tenant {line.tenant}, group {line.group}: {line.share:7} bytes of the copy {line.video_sha256[:8]}")
for tenant, share in bill.totals().items():
    print(f"tenant {tenant} bears {share} bytes")

copies = {(line.video_sha256, line.audio_sha256) for line in bill.lines}
filed = len({(key, film) for _, key, film in holdings})
print(f"{len(copies)} copies, where each film and key had one: {filed}")

# %% [markdown]
# ## A picture of the chunks
# A bar for each chunk, as long as its bytes and where they stand, in a row for each kind: SVG, which a browser shows.

# %%
COLOURS = {"video": "#3b6ea5", "audio": "#c0703c", "other": "#8a8a8a", "end": "#2f2f2f"}
WIDTH, ROW = 900, 36


def picture_of(film: usm.Film) -> str:
    chunks = list(film.chunks())
    ends = [chunk.start for chunk in chunks[1:]] + [film.size]
    bars = []
    for chunk, end in zip(chunks, ends):
        row = list(COLOURS).index(chunk.kind)
        left, width = (place * WIDTH / film.size for place in (chunk.start, end - chunk.start))
        said = f"{chunk.kind} at {chunk.start}: {chunk.length} bytes, mask {chunk.mask or 'none'}"
        bars.append(
            f'<rect x="{80 + left:.2f}" y="{10 + row * ROW}" width="{max(width, 1):.2f}" height="{ROW - 8}"'
            f' fill="{COLOURS[chunk.kind]}" stroke="white" stroke-width="0.5"><title>{escape(said)}</title></rect>'
        )
    names = [f'<text x="8" y="{30 + row * ROW}">{kind}</text>' for row, kind in enumerate(COLOURS)]
    height = 20 + ROW * len(COLOURS)
    frame = f'<svg xmlns="http://www.w3.org/2000/svg" viewBox="0 0 {WIDTH + 90} {height}" font-family="sans-serif" font-size="14">'
    return "\n".join([frame, *names, *bars, "</svg>"]) + "\n"


with usm.open(folder / "lark-10.usm") as film:
    (folder / "chunks.svg").write_text(picture_of(film))
    print(f"{sum(1 for _ in film.chunks())} chunks: chunks.svg")
