"""Films: what they hold, and both streams, read piece by piece."""

from __future__ import annotations

import io
from collections.abc import Iterator
from typing import Any, BinaryIO, NamedTuple, Optional, SupportsIndex

from usm._lent import key_number, lend, lend_writable
from usm._native import lib
from usm._reading import DEFAULT, Reading
from usm._refusal import accepted
from usm._source import FilmLike, Source, source
from usm._tables import Table

# How many bytes are read at once to find the heads of chunks; as many are tried first for the header.
_WINDOW = 4096

_KINDS = {
    lib.USM_CHUNK_VIDEO: "video",
    lib.USM_CHUNK_AUDIO: "audio",
    lib.USM_CHUNK_OTHER: "other",
    lib.USM_CHUNK_END: "end",
}
_MASKS = {lib.USM_MASK_NONE: None, lib.USM_MASK_VIDEO: "video", lib.USM_MASK_AUDIO: "audio"}
_MASK_NUMBERS = {word: number for number, word in _MASKS.items()}


class Chunk(NamedTuple):
    """A chunk of a film.

    start: the byte of the film where it starts
    kind: "video", "audio", "other" or "end"
    data_type: 0 to 3; only payloads of data type 0 are masked
    channel: its channel
    payload: the byte of the film where its payload starts
    length: the bytes of its payload, 0 where it is skipped
    mask: the mask that its payload has: "video", "audio", or None
    """

    start: int
    kind: str
    data_type: int
    channel: int
    payload: int
    length: int
    mask: Optional[str]


class Codecs(NamedTuple):
    """The codecs that a film's header gives; None where it gives none."""

    video: Optional[int]
    audio: Optional[int]


class Streams(NamedTuple):
    """Both streams of a film; audio is None where there is none or it is not taken."""

    video: bytes
    audio: Optional[bytes]


class Film:
    """An open film, as usm.open returns it. `with` or close() closes it.

    name: its name, as the bytes that the film stores; None where it has none
    codecs: the codecs of video and audio
    has_audio: whether it has audio, taken or not
    video_kind: "m2v" or "ivf"
    audio_kind: "adx" or "hca"; None where there is no audio
    size: its bytes
    reading: how it is read

    All methods may be called from several threads.
    """

    name: Optional[bytes]
    codecs: Codecs
    has_audio: bool
    video_kind: str
    audio_kind: Optional[str]
    size: int
    reading: Reading

    def __init__(self, bytes_of: Source, reading: Reading) -> None:
        self._source = bytes_of
        self.size = bytes_of.size
        self.reading = reading
        self._lent_reading = reading.lent()
        self._beginning, opened = _open(bytes_of, self._lent_reading)
        self._chunks: int = opened.chunks
        self._audio = lib.usm_audio_of(opened.film)
        self._describe(opened.film)

    def _describe(self, film: Any) -> None:
        start, end = film.name_start, film.name_start + film.name_length
        is_named = film.name_source == lib.USM_NAME_IN_CONTAINER
        self.name = bytes(self._beginning[start:end]) if is_named else None
        self.codecs = Codecs(
            film.video_codec if film.has_video_codec else None, film.audio_codec if film.has_audio_codec else None
        )
        self.has_audio = bool(film.has_audio)
        self.video_kind = "ivf" if film.video_kind == lib.USM_VIDEO_IVF else "m2v"
        self.audio_kind = ("hca" if film.audio_kind == lib.USM_AUDIO_HCA else "adx") if film.has_audio else None

    def __repr__(self) -> str:
        return f"<usm.Film {self.name!r}, {self.size} bytes>"

    def __enter__(self) -> Film:
        return self

    def __exit__(self, *_: object) -> None:
        self.close()

    def close(self) -> None:
        """Closes the file that usm.open opened. A file that was given stays open."""
        self._source.close()

    def chunks(self) -> Iterator[Chunk]:
        """The chunks, one after the other. A refusal is raised where the walk meets it.

        >>> import usm
        >>> with usm.open("song.usm") as film:
        ...     for chunk in film.chunks():
        ...         print(chunk.start, chunk.kind, chunk.length)
        704 video 608
        1344 audio 400
        1792 video 256
        2080 audio 336
        2464 video 589
        3104 other 0
        3168 end 0
        3232 end 0
        """
        for place, step in self._steps(self._walk()):
            yield Chunk(
                place, _KINDS[step.kind], step.data_type, step.channel, step.payload, step.length, _MASKS[step.mask]
            )

    def _walk(self) -> _Walk:
        return _Walk(self._source, self._lent_reading, self._audio)

    def _steps(self, walk: _Walk) -> Iterator[tuple[int, Any]]:
        """The places of the chunks, each with the library's reply on it."""
        place = self._chunks
        while True:
            step = accepted(walk.step(place))
            if step.found == lib.USM_STEP_OVER:
                return
            yield place, step
            place = step.next

    def tables(self) -> list[Table]:
        """The tables of the header, in their order.

        >>> import usm
        >>> with usm.open("song.usm") as film:
        ...     print([table.place for table in film.tables()])
        ...     print(film.tables()[1].cell("mpeg_codec", 0))
        [32, 160, 256, 480, 544]
        1
        """
        with lend(self._beginning) as lent:
            found = accepted(lib.usm_header_tables(lent, len(lent), self.size, self._lent_reading)).tables
        places = (found.name, found.video, found.audio, found.video_metadata, found.audio_metadata)
        # A film without audio has no table at the place 0.
        return [Table(self._beginning, place, self.reading) for place in sorted(places) if place > 0]

    @property
    def key_bits(self) -> int:
        """The bits of a key that the film shows: two keys give the same streams exactly when they agree in these.

        >>> import usm
        >>> with usm.open("song.usm") as film:
        ...     print(f"{film.key_bits:016X}")
        00FFFF0FFFFFFFFF
        """
        return max((lib.usm_payload_bits(_MASK_NUMBERS[chunk.mask], chunk.length) for chunk in self.chunks()), default=0)

    def _profile_reply(self) -> Any:
        """The library's reply on the delivery profile, for usm.profile. The film has to be open with the default reading."""
        walk = self._walk()
        known = lib.usm_profile_begin(self._audio)
        for place, _ in self._steps(walk):
            with walk.window(place) as window:
                known = lib.usm_profile_step(window, len(window), place, known)
        return lib.usm_profile_end(self.size, known)

    def payloads(self, key: Optional[SupportsIndex] = None) -> Iterator[tuple[Chunk, memoryview]]:
        """Each chunk that has a payload, and the payload: unmasked with the key, or as it is stored if there is none. The next
        payload overwrites it, so copy what you keep."""
        number = None if key is None else key_number(key)
        room = bytearray()
        for chunk in self.chunks():
            if chunk.length > 0:
                if chunk.length > len(room):
                    room = bytearray(chunk.length)
                payload = memoryview(room)[: chunk.length]
                self._source.read_into(chunk.payload, payload)
                if number is not None:
                    clear(number, chunk.mask, payload)
                yield chunk, payload

    def extract(
        self,
        key: Optional[SupportsIndex] = None,
        video: Optional[BinaryIO] = None,
        audio: Optional[BinaryIO] = None,
    ) -> None:
        """Writes the streams to files: unmasked with the key, or as they are stored if there is none. It needs no more memory
        than the longest payload. A film that is refused is refused before anything is written.

        >>> import io, usm
        >>> video = io.BytesIO()
        >>> with usm.open("song.usm") as film:
        ...     film.extract(0x0123456789ABCDEF, video=video)
        >>> len(video.getvalue())
        1453
        """
        self.check()
        files = {"video": video, "audio": audio}
        for chunk, payload in self.payloads(key):
            file = files[chunk.kind]
            if file is not None:
                _write(file, payload)

    def check(self) -> None:
        """Walks over all chunks, and raises the refusal if there is one."""
        for _ in self.chunks():
            pass

    def streams(self, key: Optional[SupportsIndex] = None) -> Streams:
        """Both streams in memory: unmasked with the key, or as they are stored if there is none.

        >>> import usm
        >>> with usm.open("song.usm") as film:
        ...     streams = film.streams(0x0123456789ABCDEF)
        >>> len(streams.video), len(streams.audio)
        (1453, 736)
        """
        video, audio = io.BytesIO(), io.BytesIO()
        self.extract(key, video, audio)
        takes_audio = self.has_audio and self.reading.audio != "none"
        return Streams(video.getvalue(), audio.getvalue() if takes_audio else None)


class _Walk:
    """Steps over a film by windows."""

    def __init__(self, bytes_of: Source, lent_reading: Any, audio: Any) -> None:
        self._source = bytes_of
        self._reading = lent_reading
        self._audio = audio
        self._start = 0
        self._window = memoryview(b"")

    def step(self, place: int) -> Any:
        """The step at a place. A window that starts at the place is read where the last one does not reach, or is too short."""
        length = _WINDOW
        step = self._by_window(place)
        while step.number == lib.USM_ACCEPTED and step.found == lib.USM_STEP_MORE:
            self._read(place, length)
            step = self._by_window(place)
            length *= 2
        return step

    def window(self, place: int) -> Any:
        """What there is of the last window from a place on, lent to the library."""
        is_within = self._start <= place <= self._start + len(self._window)
        return lend(self._window[place - self._start :] if is_within else b"")

    def _by_window(self, place: int) -> Any:
        with self.window(place) as window:
            return lib.usm_step(window, len(window), place, self._source.size, self._reading, self._audio)

    def _read(self, place: int, length: int) -> None:
        self._start = place
        self._window = memoryview(bytearray(min(length, self._source.size - place)))
        self._source.read_into(place, self._window)


def _open(bytes_of: Source, lent_reading: Any) -> tuple[bytearray, Any]:
    """The beginning of a film, long enough to hold its header, and the library's reply about it."""
    length = _WINDOW
    while True:
        beginning = bytearray(min(length, bytes_of.size))
        bytes_of.read_into(0, memoryview(beginning))
        with lend(beginning) as lent:
            opened = lib.usm_open(lent, len(beginning), bytes_of.size, lent_reading)
        if not opened.more:
            accepted(opened.film)
            return beginning, opened
        length *= 2


def clear(key: int, mask: Optional[str], payload: memoryview) -> None:
    """Unmasks the whole payload of a chunk, in place."""
    if mask is not None:
        with lend_writable(payload) as lent:
            lib.usm_clear(key, _MASK_NUMBERS[mask], lent, len(lent))


def _write(file: BinaryIO, payload: memoryview) -> None:
    """Writes a whole payload, also to a file that takes only a part of it at once."""
    while len(payload) > 0:
        written = file.write(payload)
        payload = payload[len(payload) if written is None else written :]


def open(film: FilmLike, reading: Reading = DEFAULT) -> Film:
    """Opens a film: by its path, as a binary file that can seek, or by its bytes.

    >>> import usm
    >>> with usm.open("song.usm") as film:
    ...     print(film.name, film.codecs, film.video_kind, film.audio_kind)
    b'songs/lark.usm' Codecs(video=1, audio=2) m2v adx
    """
    if not isinstance(reading, Reading):
        raise TypeError(f"a usm.Reading is needed, and not a {type(reading).__name__}")
    found = source(film)
    try:
        return Film(found, reading)
    except BaseException:
        found.close()
        raise
