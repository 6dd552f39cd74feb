class Lib(Package):
    version("2")
    version("1")
    depends_on("tool", type="run", when="@1")
