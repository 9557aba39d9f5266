"""The page of a ward's folder, which `inrc2pb-plan serve` shows to browsers on this machine.

The `server` answers a browser with what the `site` has at an address: the `layout` of the roster,
the `cell` of a nurse's day, and `forms`. A form becomes an event of `plans`, and `jobs` let one
event happen at a time.
"""
