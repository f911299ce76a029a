"""What is accepted of an image, and by which limits it is written: for the plain reader, for the program, and for a script's sessions."""

from dataclasses import dataclass

TWO_ZERO, TWO_ONE = 0x00020000, 0x00020001
LIMITS = {"name_max": 255, "file_max": 2147483647, "attr_max": 1022, "inline_max": 1022}  # the format's own


@dataclass(frozen=True)
class Profile:
    versions: tuple = (TWO_ZERO,)
    name_max: int = LIMITS["name_max"]
    file_max: int = LIMITS["file_max"]
    attr_max: int = LIMITS["attr_max"]
    inline_max: int = LIMITS["inline_max"]
    pair_cycles: int = 0  # it is told to sessions alone

    def limits(self):
        """What a superblock says of them."""
        return self.name_max, self.file_max, self.attr_max

    def inline_limit(self, block_size):
        """The longest file that is kept in its entry."""
        return min(self.inline_max, block_size // 8, LIMITS["inline_max"])

    def struct_limit(self, block_size):
        """The longest struct of an entry: that file, or 8 bytes for a list or a directory."""
        return max(8, self.inline_limit(block_size))

    def given(self):
        """Each limit that isn't the format's own, with its option's name."""
        return [(name.replace("_", "-"), str(getattr(self, name))) for name, own in LIMITS.items() if getattr(self, name) != own]

    def options(self):
        """As options of mklittlefs."""
        later = ["--also-2.1"] * (TWO_ONE in self.versions)
        return later + [word for name, number in self.given() for word in (f"--{name}", number)]

    def line(self):
        """As a line of a script, for the devices of the lines behind it."""
        later = ["also-2.1"] * (TWO_ONE in self.versions)
        cycles = ["pair-cycles", str(self.pair_cycles)] * (self.pair_cycles > 0)
        return " ".join(["profile", *later, *(word for option in self.given() for word in option), *cycles])


DEFAULT = Profile()
ALSO_2_1 = Profile(versions=(TWO_ZERO, TWO_ONE))


def add_options(parser):
    """The options of mklittlefs, for scripts that hand them on."""
    parser.add_argument("--also-2.1", dest="also", action="store_true")
    for name, own in LIMITS.items():
        parser.add_argument("--" + name.replace("_", "-"), type=int, default=own)


def chosen(options):
    versions = ALSO_2_1.versions if options.also else DEFAULT.versions
    return Profile(versions, *(getattr(options, name) for name in LIMITS))
