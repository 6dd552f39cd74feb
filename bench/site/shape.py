"""The names of a made repository, in layers as Spack's packages lie: libraries of the system, tools, the core of scientific software.

A package depends on packages of its layer and of lower ones. What stands behind the core, libraries and applications, has numbers for
names (packages.py).
"""

SYSTEM = """
zlib-ng zlib ncurses bzip2 xz zstd libiconv gettext libxml2 readline gdbm libffi expat util-linux-uuid sqlite openssl curl libedit
berkeley-db lz4 pcre2 libunistring libidn2 nghttp2 diffutils findutils gawk tar libsigsegv krb5 libmd libbsd libxcrypt gmp mpfr mpc isl
libtirpc libnl numactl
""".split()

TOOLS = """
gmake pkgconf pkg-config perl m4 cmake python autoconf automake libtool ninja meson bison byacc flex re2c texinfo help2man swig doxygen git
tcl ruby go rust llvm py-pip py-wheel py-setuptools py-cython py-pybind11 py-flit-core py-hatchling py-poetry-core py-setuptools-scm
py-packaging py-typing-extensions py-importlib-metadata py-six
""".split()

# The first of these stand below the providers, so none of them needs a virtual package that a later one provides.
UNDER_PROVIDERS = "hwloc libevent libpciaccess ucx libfabric pmix prrte slurm cuda hip libpng elfutils libunwind papi".split()

PROVIDERS = """
openmpi mpich mvapich intel-oneapi-mpi cray-mpich mpt openblas netlib-lapack intel-oneapi-mkl blis atlas amdblis essl libflame fftw
amdfftw libjpeg-turbo libjpeg mesa libglvnd intel-tbb scalapack
""".split()

CORE = UNDER_PROVIDERS + PROVIDERS + """
py-numpy py-scipy py-mpi4py hdf5 boost netcdf-c netcdf-fortran parallel-netcdf metis parmetis scotch superlu superlu-dist hypre eigen gsl
suite-sparse mumps arpack-ng libaec szip zfp sz snappy c-blosc adios2 freetype fontconfig libtiff glib pixman pango cairo harfbuzz
libx11 libxcb xproto glew qt yaml-cpp libyaml json-c nlohmann-json fmt spdlog pcre kokkos raja umpire camp blt conduit silo sundials
strumpack slate butterflypack ginkgo magma amrex petsc slepc mfem libceed caliper adiak dyninst tau darshan-runtime gperftools trilinos
axom ascent vtk-m paraview visit
""".split()

# Each virtual package: its providers, the first of which the graph that is planted has; and whether `provides` says versions.
VIRTUALS = {
    "mpi": (PROVIDERS[:6], True),
    "blas": (["openblas", "netlib-lapack", "intel-oneapi-mkl", "blis", "atlas", "amdblis", "essl"], False),
    "lapack": (["openblas", "netlib-lapack", "intel-oneapi-mkl", "atlas", "libflame", "essl"], False),
    "fftw-api": (["fftw", "amdfftw", "intel-oneapi-mkl"], True),
    "scalapack-api": (["scalapack", "intel-oneapi-mkl"], False),
    "tbb": (["intel-tbb", "intel-oneapi-mkl"], False),
    "zlib-api": (["zlib-ng", "zlib"], False),
    "pkgconfig": (["pkgconf", "pkg-config"], False),
    "jpeg": (["libjpeg-turbo", "libjpeg"], False),
    "gl": (["mesa", "libglvnd"], False),
    "yacc": (["bison", "byacc"], False),
    "iconv": (["libiconv"], False),
    "uuid": (["util-linux-uuid"], False),
}

EXTERNALS = "openssl perl git slurm cuda cray-mpich texinfo tar gawk findutils diffutils krb5".split()
NOT_BUILT = ["slurm", "cray-mpich"]

FLAGS = """
shared static openmp cuda fortran cxx python tests docs examples hdf5 netcdf pic int64 debug threads x11 ssl zlib complex tools rocm hl
java doc optimize profiling gui lapack
""".split()
USUALLY_ON = ["shared", "cxx", "zlib", "ssl", "optimize", "pic", "mpi"]

# The roots that are asked for first; numbered ones follow.
ROOTS = "hdf5 petsc trilinos netcdf-c hypre mfem paraview py-scipy adios2 slepc".split()
