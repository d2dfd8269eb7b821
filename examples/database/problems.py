"""What is wrong with an input, said in a sentence that tells what to do."""


class Problem(Exception):
    """Its text is for the user. Where one is raised, nothing was written."""
