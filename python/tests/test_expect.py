"""Tries tools/expect: a log is kept, and is a test from then on."""
from labtools.common.program import TOP
from tests.commands import LOG, Packaged

EXPECT = TOP / "tools/expect"


class Expect(Packaged):
    def expect(self, status: int, text: str, *words: str, **settings: str) -> None:
        self.wants(status, text, EXPECT, *words, **settings)

    def test_a_log_is_kept_and_compared(self) -> None:
        self.expect(1, "there is no test/log", "test/s.resc", "test/log")
        self.expect(0, "test/log has 1 lines now", "--bless", "test/s.resc", "test/log")
        self.assertEqual(self.read("test/log"), LOG)
        self.expect(0, "", "test/s.resc", "test/log")
        self.expect(0, "", "test/s.resc", "test/log", "--until", "2")
        self.write("test/log", f"{LOG}a line\n")
        self.expect(1, "-a line", "test/s.resc", "test/log")
        self.expect(73, "tools/expect SCRIPT LOG", "test/s.resc")
        self.expect(73, "cannot create", "--bless", "test/s.resc", "test/none/log")

    def test_a_log_that_is_not_there_or_is_empty_tests_nothing(self) -> None:
        self.write("test/quiet.resc", 'mach create "m"\n')
        self.write("test/empty", "")
        self.expect(1, "there is no test/none: --bless keeps one", "test/quiet.resc", "test/none")
        for script in "test/quiet.resc", "test/s.resc":
            self.expect(1, "test/empty is empty, so it tests nothing", script, "test/empty")
        self.expect(1, f"+{LOG}", "test/s.resc", "test/empty")

    def test_a_log_may_be_named_as_an_option_of_another_program_is(self) -> None:
        for name in "-q", "--backup", "-", "--":
            with self.subTest(name=name):
                self.expect(0, f"{name} has 1 lines now", "--bless", "test/s.resc", name)
                self.assertEqual(self.read(name), LOG)
                self.expect(0, "", "test/s.resc", name)
                self.write(name, f"{LOG}a line\n")
                self.expect(1, "-a line", "test/s.resc", name)

    def test_a_device_and_a_folder_are_no_logs(self) -> None:
        for name in "/dev/zero", "/dev/full", "test":
            for words in (), ("--bless",):
                self.expect(73, f"expect: {name} is not a plain file", *words, "test/s.resc", name)

    def test_a_run_whose_finisher_fails_says_so_first(self) -> None:
        self.expect(0, "", "--bless", "test/s.resc", "test/log")
        self.use("fail")
        self.expect(1, "a test has failed: [0.000100] pause m0/fin: fail 3", "test/s.resc", "test/log")
        self.expect(0, "are expected to fail it too", "--bless", "test/s.resc", "test/failing")
        self.expect(0, "", "test/s.resc", "test/failing")

    def test_what_lab_could_not_do_is_no_log(self) -> None:
        (self.room / "test/image.bin").unlink()
        self.write("test/empty", "")
        for words in (), ("--bless",):
            self.expect(4, "lab ended with 4", *words, "test/s.resc", "test/empty")
        self.assertEqual(self.read("test/empty"), "")
        self.add_unknown_command()
        self.use("pass")
        self.write("test/log", LOG)
        self.expect(3, "error: test/s.resc:6: S1 unknown command", "test/s.resc", "test/log")
        self.expect(2, "lab ended with 2", "test/s.resc", "test/log", "--until", "x")
        self.expect(72, "lab ended with 1", "test/s.resc", "test/log", LAB="/bin/false")
