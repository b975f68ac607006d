"""Where a device is: the store that `reader.py` and other devices keep it in, if one is named."""
from lines import stop, tell
from store import Store, StoreError

OPTIONS = {"--keep": None, "--new": False}  # what names the store, and what makes it


class Kept:
    """The place of a device, in a store or nowhere."""

    def __init__(self, options):
        self.name = self.place = None  # the address at which the device was first, and where it is: none where nothing was kept yet
        try:
            self.store = Store(options["--keep"], "device", options["--new"]) if options["--keep"] else None
            for self.name, (places, _) in self.store.devices().items() if self.store else ():
                self.place = places[0]
        except StoreError as error:
            stop(str(error))

    def first(self, rate):
        """The settings that put the reader where it is, and the rate to begin with; those of its words where nothing was kept yet."""
        return (["address", str(self.place[0])], self.place[1]) if self.place else ([], rate)

    def keep(self, address, rate):
        """Keeps where the device is from now on. Tells where that can't be done."""
        self.name = address if self.name is None else self.name
        try:
            if self.store:
                self.store.keep({self.name: ([(address, rate)], None)})
                self.store.commit()
        except StoreError as error:
            tell(f"not kept {address} {rate}: {error}")
