#!/usr/bin/env python3
"""Times the same dilation by whichever of OpenCV, SciPy, scikit-image, Leptonica, libvips and ImageMagick are installed.

    others.py FOLDER RESULTS

FOLDER holds the pictures that bench wrote, RESULTS its lines. Writes lines of the same form: processor time of one
thread, nanoseconds per pixel, the median of nine runs where a run takes under SHORT seconds, else of three, or one run
where that is slow. A time has a star where the answer's sum is not the one in RESULTS. What would take over LIMIT seconds is
left out.
"""
import ctypes
import ctypes.util
import functools
import inspect
import os
import pathlib
import resource
import shutil
import statistics
import subprocess
import sys
import time
import zlib

for name in 'OMP_NUM_THREADS', 'OPENBLAS_NUM_THREADS', 'VIPS_CONCURRENCY', 'MAGICK_THREAD_LIMIT':
    os.environ[name] = '1'

LIMIT = 10
SHORT = 0.05


class Absent(Exception):
    """The library is not installed, or does not take this sample kind."""


def timed(work):
    """What the work returns, and its processor seconds."""
    start = time.process_time()
    result = work()
    return result, time.process_time() - start


# ---- each takes a picture (raw bytes, sample, width, rows) and returns a function of the window: bytes and seconds

def arrays(raw, sample, width, rows):
    try:
        import numpy
    except ImportError:
        raise Absent
    return numpy.frombuffer(raw, 'u1' if sample == 'grey' else '<f4').reshape(rows, width)


def with_array(filter_by):
    """For the libraries that take and give numpy's arrays."""
    def prepare(raw, sample, width, rows):
        picture = arrays(raw, sample, width, rows)
        try:
            dilate = filter_by(picture)
        except ImportError:
            raise Absent

        def run(window):
            result, seconds = timed(lambda: dilate(window))
            return result.tobytes(), seconds
        return run
    return prepare


def opencv(picture, lent=None):
    import cv2
    import numpy
    cv2.setNumThreads(1)
    return lambda window: cv2.dilate(picture, numpy.ones((window, window), 'u1'), dst=lent)


def opencv_lent(picture):
    """With its output lent, so that it takes no memory for it, as a filter in place takes none."""
    return opencv(picture, picture.copy())


def scipy(picture):
    from scipy import ndimage
    return lambda window: ndimage.maximum_filter(picture, size=window, mode='nearest')


def scikit_image(picture):
    from skimage import morphology
    can_split = 'decomposition' in inspect.signature(morphology.square).parameters      # from version 0.20 on
    square = lambda window: morphology.square(window, **({'decomposition': 'separable'} if can_split else {}))
    return lambda window: morphology.dilation(picture, square(window))


def library(name):
    path = ctypes.util.find_library(name)
    if path is None:
        raise Absent
    return ctypes.CDLL(path)


def leptonica(raw, sample, width, rows):
    if sample != 'grey' or width % 4:
        raise Absent
    lept = library('lept') if ctypes.util.find_library('lept') else library('leptonica')
    lept.pixCreate.restype = lept.pixDilateGray.restype = lept.pixGetData.restype = ctypes.c_void_p
    lept.pixEndianByteSwap.argtypes = lept.pixGetData.argtypes = [ctypes.c_void_p]
    lept.pixDilateGray.argtypes = [ctypes.c_void_p, ctypes.c_int, ctypes.c_int]
    picture = lept.pixCreate(width, rows, 8)
    ctypes.memmove(lept.pixGetData(picture), raw, len(raw))
    lept.pixEndianByteSwap(picture)     # its bytes lie in words, highest first

    def run(window):
        result, seconds = timed(lambda: lept.pixDilateGray(picture, window, window))
        lept.pixEndianByteSwap(result)
        given = ctypes.string_at(lept.pixGetData(result), len(raw))
        lept.pixDestroy(ctypes.byref(ctypes.c_void_p(result)))
        return given, seconds
    return run


def libvips(raw, sample, width, rows):
    vips = library('vips')
    vips.vips_image_new_from_memory_copy.restype = vips.vips_image_write_to_memory.restype = ctypes.c_void_p
    vips.vips_init(b'bench')
    vips.vips_cache_set_max(0)
    format_number = {'grey': 0, 'float': 6}[sample]
    picture = ctypes.c_void_p(vips.vips_image_new_from_memory_copy(raw, ctypes.c_size_t(len(raw)), width, rows, 1, format_number))

    def dilate(window):
        out, length = ctypes.c_void_p(), ctypes.c_size_t()
        vips.vips_rank(picture, ctypes.byref(out), window, window, window * window - 1, None)
        memory = ctypes.c_void_p(vips.vips_image_write_to_memory(out, ctypes.byref(length)))
        return out, memory

    def run(window):
        (out, memory), seconds = timed(lambda: dilate(window))
        given = ctypes.string_at(memory, len(raw))
        vips.g_free(memory)
        vips.g_object_unref(out)
        return given, seconds
    return run


@functools.cache
def is_imagemagick(program):
    """Other programs go by the name of convert too."""
    told = subprocess.run([program, '-version'], stdout=subprocess.PIPE, stderr=subprocess.DEVNULL)
    return told.returncode == 0 and b'ImageMagick' in told.stdout


def imagemagick(raw, sample, width, rows):
    """A program: what it takes to read and write the picture is timed by itself and taken off."""
    program = shutil.which('magick') or shutil.which('convert')
    if sample != 'grey' or program is None or not is_imagemagick(program):
        raise Absent

    def seconds_of(*words):
        before = resource.getrusage(resource.RUSAGE_CHILDREN)
        command = [program, '-size', '%dx%d' % (width, rows), '-depth', '8', 'gray:-', *words, '-depth', '8', 'gray:-']
        given = subprocess.run(command, input=raw, stdout=subprocess.PIPE, check=True).stdout
        after = resource.getrusage(resource.RUSAGE_CHILDREN)
        return given, after.ru_utime + after.ru_stime - before.ru_utime - before.ru_stime

    def run(window):
        given, seconds = seconds_of('-morphology', 'Dilate', 'Rectangle:%dx%d' % (window, window))
        return given, max(0, seconds - seconds_of()[1])
    return run


LIBRARIES = {'OpenCV': with_array(opencv), 'OpenCV, output lent': with_array(opencv_lent), 'SciPy': with_array(scipy),
             'scikit-image': with_array(scikit_image), 'Leptonica': leptonica, 'libvips': libvips, 'ImageMagick': imagemagick}


# ---- measuring

def runs_for(seconds):
    """How many runs are made where one takes so long."""
    return 9 if seconds < SHORT else 3 if seconds <= LIMIT / 10 else 1


def measure(run, window, pixels):
    """The answer's sum, and nanoseconds per pixel: the median of the runs."""
    given, seconds = run(window)
    times = [seconds] + [run(window)[1] for _ in range(runs_for(seconds) - 1)]
    return zlib.adler32(given), statistics.median(times) * 1e9 / pixels


def main():
    folder, results = pathlib.Path(sys.argv[1]), pathlib.Path(sys.argv[2])
    known = {}      # nanoseconds per pixel by library, sample and window: what to expect of the next, larger one
    for line in dict.fromkeys(results.read_text().splitlines()):     # several processes wrote the same sums
        if not line.startswith('sum\t'):
            continue
        _, sample, picture, size, window, expected = line.split('\t')
        width, rows = map(int, size.split('x'))
        raw = (folder / ('%s-%s-%s' % (sample, picture, size))).read_bytes()
        for name, prepare in LIBRARIES.items():
            smaller = [cost for (other, kind, at), cost in known.items() if (other, kind) == (name, sample) and at <= int(window)]
            if smaller and max(smaller) * width * rows > LIMIT * 1e9:
                continue
            try:
                run = prepare(raw, sample, width, rows)
            except Absent:
                continue
            given, cost = measure(run, int(window), width * rows)
            known[name, sample, int(window)] = cost
            star = '' if given == int(expected) else '*'
            print('time', sample, picture, size, window, name, '%.3f%s' % (cost, star), sep='\t', flush=True)


if __name__ == '__main__':
    main()
