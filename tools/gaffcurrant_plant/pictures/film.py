"""Makes a film of runs over a picture with matplotlib: FILE.gif by Pillow, FILE.mp4 by ffmpeg where that is there. The
picture is drawn once, of a patrol once for each turn; each frame adds the ways up to a sample."""

from __future__ import annotations

import contextlib
import shutil
import subprocess
from typing import IO, TYPE_CHECKING, Iterable, Iterator, Optional, Sequence

from ..faults import Trouble
from ..progress import Progress
from . import flat as drawing
from .artists import Axes, Figure, Image

if TYPE_CHECKING:
    from .flat import Course

FRAMES, RATE = 240, 12


class Scene:
    """A drawn figure, and the artists that change from frame to frame."""

    def __init__(self, figure: Figure, axes: Axes, courses: Sequence[Course], turn: Optional[int], dpi: int) -> None:
        self.figure, self.axes, self.courses = figure, axes, courses
        self.said = "" if turn is None else f", turn {turn}"
        self.trails = [
            axes.plot([], [], color=drawing.RUN, linewidth=1.1, path_effects=drawing.halo(), zorder=20)[0]
            for _ in courses
        ]
        self.heads = [
            axes.plot([], [], marker="o", markersize=6, color=drawing.TARGET, markeredgecolor="white", zorder=21)[0]
            for _ in courses
        ]
        self.title = axes.set_title("sample 0", fontsize=9)
        figure.set_dpi(dpi)
        self.artists = self.trails + self.heads + [self.title]
        figure.draw_without_rendering()
        # The title has its room by now.
        figure.set_layout_engine("none")
        for artist in self.artists:
            artist.set_animated(True)
        figure.canvas.draw()
        self.ground = figure.canvas.copy_from_bbox(figure.bbox)

    def frame(self, sample: int) -> Image:
        """The picture with the ways up to a sample, as an image of Pillow."""
        from PIL import Image as pillow

        self.figure.canvas.restore_region(self.ground)
        for trail, head, course in zip(self.trails, self.heads, self.courses):
            last = min(sample, len(course.ends) - 1)
            trail.set_data(*course.upto(last))
            head.set_data(*(column[last : last + 1] for column in course.places))
        self.title.set_text(f"sample {sample}{self.said}")
        for artist in self.artists:
            self.axes.draw_artist(artist)
        size = self.figure.canvas.get_width_height()
        return pillow.frombuffer("RGBA", size, bytes(self.figure.canvas.buffer_rgba()), "raw", "RGBA", 0, 1).convert(
            "RGB"
        )


def write_film(scenes: Sequence[Scene], turns: Sequence[int], path: str) -> None:
    """Writes the frames of the scenes. turns has for each sample the number of the scene."""
    if len(turns) < 2:
        raise Trouble("--animate shows runs: give --from or --trace, with a run of two samples at least", 2)
    if path.endswith(".mp4") and not shutil.which("ffmpeg"):
        raise Trouble("a film FILE.mp4 needs ffmpeg (Debian: apt-get install ffmpeg); FILE.gif needs nothing more")
    step = -(-len(turns) // FRAMES)
    samples = sorted({*range(0, len(turns), step), len(turns) - 1})
    progress = Progress("picture")

    def frames() -> Iterator[Image]:
        for number, sample in enumerate(samples):
            progress.show(number / len(samples))
            yield scenes[turns[sample]].frame(sample)

    (write_by_ffmpeg if path.endswith(".mp4") else write_gif)(frames(), palette_of(scenes, turns), path)
    progress.end()


def palette_of(scenes: Sequence[Scene], turns: Sequence[int]) -> Image:
    """An image whose colours are those of all scenes, each with its last frame."""
    from PIL import Image as pillow

    lasts = [
        scene.frame(max(sample for sample, turn in enumerate(turns) if turn == number))
        for number, scene in enumerate(scenes)
        if number in turns
    ]
    whole = pillow.new("RGB", (max(image.width for image in lasts), sum(image.height for image in lasts)))
    for number, image in enumerate(lasts):
        whole.paste(image, (0, sum(other.height for other in lasts[:number])))
    return whole.quantize(256, dither=0)


def write_gif(frames: Iterable[Image], palette: Image, path: str) -> None:
    images = [frame.quantize(palette=palette, dither=0) for frame in frames]
    durations = [1000 // RATE] * (len(images) - 1) + [1000]
    images[0].save(path, save_all=True, append_images=images[1:], duration=durations, loop=0)


def write_by_ffmpeg(frames: Iterator[Image], _: object, path: str) -> None:
    """Hands frames to ffmpeg, the last one for a second. Sides of an odd number of pixels get one more."""
    first = next(frames)
    command = [
        "ffmpeg",
        "-y",
        "-loglevel",
        "error",
        "-f",
        "rawvideo",
        "-pix_fmt",
        "rgb24",
        "-s",
        f"{first.width}x{first.height}",
        "-r",
        str(RATE),
        "-i",
        "-",
        "-vf",
        "pad=ceil(iw/2)*2:ceil(ih/2)*2",
        "-pix_fmt",
        "yuv420p",
        path,
    ]
    with subprocess.Popen(
        command, stdin=subprocess.PIPE, stdout=subprocess.DEVNULL, stderr=subprocess.DEVNULL
    ) as ffmpeg:
        if ffmpeg.stdin is not None:
            put_frames(ffmpeg.stdin, first, frames)
    if ffmpeg.returncode:
        raise Trouble(f"{path}: ffmpeg couldn't write the film")


def put_frames(pipe: IO[bytes], first: Image, others: Iterable[Image]) -> None:
    """Writes frames as long as something reads them, which ffmpeg may not do to the end."""
    with contextlib.suppress(BrokenPipeError):
        last = first
        pipe.write(first.tobytes())
        for last in others:
            pipe.write(last.tobytes())
        pipe.write(last.tobytes() * RATE)
        pipe.close()
