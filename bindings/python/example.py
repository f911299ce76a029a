"""Gives the board a name in the settings of its image, and a line in its log: example.py disk.img NAME"""

import json
from pathlib import Path
import sys
import time

from littlefs_c import Image

path, name = Path(sys.argv[1]), sys.argv[2]
with Image.by_superblock(path.read_bytes(), also_2_1=True) as image:
    settings = json.loads(image.read("/settings.json")) if image.exists("/settings.json") else {}
    settings["name"] = name
    with image.open("/settings.json", "w") as file:
        json.dump(settings, file)
    image.makedirs("/log", exist_ok=True)
    with image.open("/log/changes", "a") as log:
        print(time.strftime("%Y-%m-%d"), "named", name, file=log)
    for folder, _, files in image.walk("/"):
        print(folder, files)
    new = path.with_suffix(".new")
    new.write_bytes(bytes(image))
    new.replace(path)
