"""Missing: which versions of CUDA and of compilers go with which `cuda_arch`, and which packages of ROCm with which `amdgpu_target`."""


class CudaPackage(PackageBase):
    cuda_arch_values = (
        "10", "11", "12", "13", "20", "21", "30", "32", "35", "37", "50", "52", "53", "60", "61", "62", "70", "72", "75",
        "80", "86", "87", "89", "90", "90a",
    )

    variant("cuda", default=False)
    variant("cuda_arch", values=any_combination_of(*cuda_arch_values), sticky=True, when="+cuda")

    depends_on("cuda", when="+cuda")


class ROCmPackage(PackageBase):
    amdgpu_targets = ("gfx803", "gfx900", "gfx906", "gfx908", "gfx90a", "gfx940", "gfx942", "gfx1030", "gfx1100")

    variant("rocm", default=False)
    variant("amdgpu_target", values=any_combination_of(*amdgpu_targets), sticky=True, when="+rocm")

    depends_on("llvm-amdgpu", when="+rocm")
    depends_on("hip", when="+rocm")
    conflicts("+cuda", when="+rocm")
