"""What programs over the labels of many sessions share: an answer for each file,
with those that are refused apart."""

import odl


def ask(files, question):
    """What `question` answers to each file's label, by file; and those that are
    refused, with their reason."""
    answers, refused = [], []
    for file in files:
        try:
            with open(file, "rb") as stream:
                label = stream.read(odl.LONGEST_LABEL + 1)
            answers.append((file, question(label)))
        except (OSError, odl.OdlError) as error:
            refused.append(f"{file}: {error}")
    return answers, refused


def end(refused) -> int:
    """Lists the files that are refused; the program's status."""
    for line in refused:
        print(f"refused {line}")
    return 1 if refused else 0
