"""What the tests that plant a mistake in a copy of the sources share: an edit's file is read, and made in a copy."""
import concurrent.futures, os, shutil, sys

def parse(path, keys):
    """An edit: the lines with one of `keys`, and pairs of old: and new: texts of one line each, each of the file: told last. Lines with # say
    what is wrong in it."""
    edit, pairs, file = {}, [], None
    for line in open(path, encoding='utf-8').read().split('\n'):
        if line.startswith('#') or not line.strip():
            continue
        key, _, value = line.partition(': ')
        if key == 'file':
            file = value.strip()
        elif key in keys:
            edit[key] = value.strip()
        elif key == 'old':
            pairs.append([file, value, None])
        elif key == 'new:' or key == 'new':
            pairs[-1][2] = value
        else:
            raise SystemExit(f'{path}: {line!r} is no line of an edit')
    edit['pairs'] = pairs
    return edit

def make(folder, pairs):
    """Makes the pairs in the files below `folder`; answers what is wrong with them, or None."""
    for file in sorted({file for file, _, _ in pairs}):
        path, here = os.path.join(folder, file), [pair[1:] for pair in pairs if pair[0] == file]
        text = open(path, encoding='utf-8').read()
        for old, new in here:
            if text.count(old) != 1:
                return f'the old text {old!r} stands {text.count(old)} times in {file}'
        for old, new in sorted(here, key=lambda pair: -text.index(pair[0])):
            at = text.index(old)
            text = text[:at] + new + text[at + len(old):]
        open(path, 'w', encoding='utf-8').write(text)

def at_once(work, items):
    """Each item with what `work` answers of it, as many at a time as there are processors, in order."""
    with concurrent.futures.ThreadPoolExecutor(max_workers=min(4, os.cpu_count() or 1)) as pool:
        yield from zip(items, pool.map(work, items))

def try_all(kind, attempt, paths, work):
    """Tries each edit, as many at a time as there are processors; ends the program with the count as its last line."""
    failed = 0
    for _, (label, wrong, refused) in at_once(attempt, paths):
        failed += wrong is not None
        print(f'{kind}: {label}: ' + (f'FAILED, {wrong}' if wrong else refused), flush=True)
    if failed:
        print(f'the copies are in {work}')
    else:
        shutil.rmtree(work)
    print(f'{len(paths) - failed} passed, {failed} failed')
    sys.exit(1 if failed or not paths else 0)
