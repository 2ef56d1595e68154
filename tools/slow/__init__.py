"""The store by its definitions, in plain Python with no regard to speed."""
