"""For the clients in Python: names of calls, and whether each gave what the protocol says."""


class Calls:
    def __init__(self, client):
        self.client, self.works, self.fails = client, [], []

    def check(self, name, call, wanted):
        """Whether the call gives what is wanted, or raises that error."""
        try:
            got = call()
        except Exception as error:  # (each client has errors of its own)
            got = type(error)
        (self.works if got == wanted else self.fails).append(name)
        return self

    def report(self):
        print(f"{self.client} works: {' '.join(self.works)}")
        print(f"{self.client} fails: {' '.join(self.fails)}")
