"""The extents of an arena over its journal, line by line of a trace, as tools/picture draws them.

docs/JOURNAL.md has the words of an entry. Which extent a look, a purge or a neighbour's search takes isn't in their entries: it is in
the next entry of the same client, so the extent is taken to be in flight from the earlier one on.
"""
import bisect

STATES = ACTIVE, DIRTY, MUZZY, RETAINED, FLIGHT = range(5)
PAGE = 4096
CHUNK_PAGES = 512
LAST_PAGE = CHUNK_PAGES * 1048576
SMALL_CLASSES = 36


def class_sizes():
    """The bytes of each size class: up to 128 by 16, then four to each doubling."""
    sizes = [8] + [16 * it for it in range(1, 9)]
    while len(sizes) < 121:
        base = sizes[-1]
        sizes += [base + base // 4 * step for step in range(1, 5)]
    return sizes[:121]


SIZES = class_sizes()


class Extent:
    """An extent as it is now: its pages, its state with the list it came from, and since which lines it is and is so."""
    __slots__ = ("first", "pages", "state", "rest", "committed", "size_class", "made", "since")

    def __init__(self, first, pages, state, rest, committed, line):
        self.first, self.pages, self.state, self.rest = first, pages, state, rest
        self.committed, self.size_class, self.made, self.since = committed, -1, line, line


class Arena:
    """An arena's extents, and the bars that they leave: [line, line behind it, page, pages, state, committed, line that made it,
    arena, class or -1]."""

    def __init__(self, index, resets):
        self.index = index
        self.resets = iter(resets)  # of each reset in turn, whether it was done
        self.bars = []
        self.refused = []           # [line, address, client, words of the ask]
        self.line = 0
        self.begin()

    def begin(self):
        self.extents, self.firsts, self.takes = {}, [], {}
        self.pages = [0] * len(STATES)
        self.slots, self.used = [0] * SMALL_CLASSES, [0] * SMALL_CLASSES

    # ---- what happens to an extent

    def add(self, first, pages, state, rest, committed):
        extent = Extent(first, pages, state, rest, committed, self.line)
        self.extents[first] = extent
        bisect.insort(self.firsts, first)
        self.pages[state] += pages
        return extent

    def draw(self, extent, line):
        """The bar of an extent as it was up to a line."""
        if line > extent.since:
            self.bars.append([extent.since, line, extent.first, extent.pages, extent.state, int(extent.committed), extent.made,
                              self.index, extent.size_class])
            extent.since = line

    def turn(self, extent, state, line):
        self.draw(extent, line)
        if extent.state == ACTIVE and state != ACTIVE:
            self.leave_class(extent)
        self.pages[extent.state] -= extent.pages
        self.pages[state] += extent.pages
        extent.state = state

    def leave_class(self, extent):
        if 0 <= extent.size_class < SMALL_CLASSES:
            self.slots[extent.size_class] -= extent.pages * PAGE // SIZES[extent.size_class]
        extent.size_class = -1

    def remove(self, extent):
        self.draw(extent, self.line)
        self.pages[extent.state] -= extent.pages
        del self.extents[extent.first]
        del self.firsts[bisect.bisect_left(self.firsts, extent.first)]

    def put_down(self, extent):
        self.turn(extent, extent.rest, self.line)

    def taken(self, client, first, pages):
        """The extent that an entry names as one of its client in flight."""
        extent = self.extents[first]
        if extent.pages != pages:
            raise KeyError(first)
        if extent.state != FLIGHT:
            extent.rest = DIRTY if extent.state == ACTIVE else extent.state
            self.turn(extent, FLIGHT, max(extent.since, self.takes.get(client, self.line)))
        return extent

    def holder_of(self, page):
        """The extent with a page, if there is one."""
        place = bisect.bisect_right(self.firsts, page) - 1
        extent = self.extents[self.firsts[place]] if place >= 0 else None
        return extent if extent and page < extent.first + extent.pages else None

    def is_free(self, first, pages):
        place = bisect.bisect_left(self.firsts, first)
        behind = place < len(self.firsts) and self.firsts[place] < first + pages
        return not behind and self.holder_of(first) is None

    def split(self, extent, left, kept_state, other_state, keep_low):
        self.remove(extent)
        low, high = (kept_state, other_state) if keep_low else (other_state, kept_state)
        return (self.add(extent.first, left, low, extent.rest, extent.committed),
                self.add(extent.first + left, extent.pages - left, high, extent.rest, extent.committed))

    def join(self, low, high, state):
        self.remove(low)
        self.remove(high)
        return self.add(low.first, low.pages + high.pages, state, low.rest, low.committed)

    # ---- entries

    def entry(self, line, client, words):
        """Takes in an entry that was made for a line."""
        self.line = line
        act = getattr(self, f"on_{words[0]}", None)
        if act is not None:
            act(client, words[1:])

    def heard(self, client, words):
        """What was heard: the numbers of the ask, whether it was done, and the words behind it; a refusal is noted."""
        place = next(at for at, word in enumerate(words) if word in ("done", "refused", "placed"))
        numbers = [None if word == "-" else int(word) for word in words[1:place]]
        if words[place] == "refused":
            page = numbers[0] if words[0] != "alloc" else None
            self.refused.append([self.line, -1 if page is None else page * PAGE, client, " ".join(words[:place])])
        return numbers, words[place] != "refused", words[place + 1:]

    def on_look(self, client, words):
        self.takes[client] = self.line

    on_purgetake = on_widen = on_look

    def on_growdone(self, client, words):
        numbers, is_done, behind = self.heard(client, words)
        if not is_done:
            return
        pages, align, first = numbers[1], numbers[2], int(behind[0])
        fits = CHUNK_PAGES <= first and first + pages <= LAST_PAGE and first % align == 0
        if fits and behind[3] == "-" and self.is_free(first, pages):
            self.add(first, pages, FLIGHT, RETAINED, behind[1] == "1")

    def on_cutdone(self, client, words):
        (first, pages, left), is_done, (keep_low,) = self.heard(client, words)
        extent = self.taken(client, first, pages)
        if is_done:
            self.split(extent, left, FLIGHT, extent.rest, keep_low == "1")
        else:
            self.put_down(extent)

    def on_commitdone(self, client, words):
        (first, pages), is_done, _ = self.heard(client, words)
        extent = self.taken(client, first, pages)
        if is_done:
            self.draw(extent, self.line)
            extent.committed = True
        else:
            self.put_down(extent)

    def on_land(self, client, words):
        first, pages, size_class, count = map(int, words)
        extent = self.taken(client, first, pages)
        self.turn(extent, ACTIVE, self.line)
        extent.size_class = size_class
        if size_class < SMALL_CLASSES:
            self.slots[size_class] += pages * PAGE // SIZES[size_class]
            self.used[size_class] += count

    def on_fill(self, client, words):
        size_class, count = map(int, words)
        self.used[size_class] += min(count, self.slots[size_class] - self.used[size_class])

    def on_back(self, client, words):
        self.takes[client] = self.line
        for address in words[1:]:
            extent = self.holder_of(int(address) // PAGE)
            if extent and 0 <= extent.size_class < SMALL_CLASSES:
                self.used[extent.size_class] -= 1

    def on_putlook(self, client, words):
        extent = self.taken(client, int(words[0]), int(words[1]))
        # (where it isn't put down, the client's next entry names it again)
        self.put_down(extent)
        self.takes[client] = self.line

    def on_mergedone(self, client, words):
        (first, pages, other_first, other_pages), is_done, (own_low,) = self.heard(client, words)
        low, high = self.taken(client, first, pages), self.taken(client, other_first, other_pages)
        if is_done:
            self.join(low, high, FLIGHT)
        else:
            self.put_down(high if own_low == "1" else low)

    def on_lazydone(self, client, words):
        (first, pages), is_done, _ = self.heard(client, words)
        extent = self.taken(client, first, pages)
        if is_done:
            extent.rest = MUZZY

    def on_offer(self, client, words):
        self.remove(self.taken(client, int(words[0]), int(words[1])))

    def on_offerdone(self, client, words):
        (first, pages, committed), is_done, (found,) = self.heard(client, words)
        if not is_done and found == "-" and self.is_free(first, pages):
            self.add(first, pages, FLIGHT, RETAINED, committed == 1)

    def on_decommitdone(self, client, words):
        (first, pages), is_done, _ = self.heard(client, words)
        extent = self.taken(client, first, pages)
        if is_done:
            self.draw(extent, self.line)
            extent.committed = False

    def on_forceddone(self, client, words):
        self.heard(client, words)

    def on_joindone(self, client, words):
        (first, pages, other_first, other_pages), is_done, (size_class,) = self.heard(client, words)
        other = self.taken(client, other_first, other_pages)
        if is_done:
            self.join(self.extents[first], other, ACTIVE).size_class = int(size_class)
        else:
            self.put_down(other)

    def on_trimdone(self, client, words):
        (first, _, left), is_done, (size_class,) = self.heard(client, words)
        if is_done:
            extent = self.extents[first]
            extent.rest = DIRTY
            self.split(extent, left, ACTIVE, FLIGHT, True)[0].size_class = int(size_class)

    def on_reset(self, client, words):
        if next(self.resets, False):
            for extent in list(self.extents.values()):
                if extent.state == ACTIVE:
                    extent.rest = DIRTY
                    self.put_down(extent)
            self.used = [0] * SMALL_CLASSES

    def on_destroytake(self, client, words):
        for extent in list(self.extents.values()):
            self.remove(extent)
        self.begin()

    def finish(self, line):
        for extent in self.extents.values():
            self.draw(extent, line)

    # ---- what is counted

    def bytes_by_state(self):
        return [pages * PAGE for pages in self.pages]

    def free_by_class(self):
        """Of each small class, the bytes of its slabs that serve no region."""
        return [(self.slots[it] - self.used[it]) * SIZES[it] for it in range(SMALL_CLASSES)]
