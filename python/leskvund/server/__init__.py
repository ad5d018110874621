"""A language server for LMNtal: refusals and warnings as one types, cures on hover, and where a name is used."""
