"""Files by hand with what an import makes of them and reports, written from docs/FORMATS.md, "What becomes of each line
of a file"."""

from __future__ import annotations

import hand_entries
import hand_fields
import hand_members
import hand_places

FILES = (*hand_fields.FILES, *hand_members.FILES, *hand_places.FILES, *hand_entries.FILES)
