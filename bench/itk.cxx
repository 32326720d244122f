/*
 * Reconstructs a mask from a marker with ITK's ReconstructionByDilationImageFilter.
 *
 *     c++ -O2 -I/usr/include/ITK-5.2 -o itk itk.cxx \
 *         -lITKCommon-5.2 -litksys-5.2 -litkvnl-5.2 -litkvnl_algo-5.2
 *     ./itk 4|8 MASK MARKER > output
 *
 * MASK and MARKER are raw PGM files of 8 or 16 bits, and so is the output.
 */

#include <cstdint>
#include <cstdio>
#include <cstdlib>
#include <cstring>
#include <vector>

#include <itkImage.h>
#include <itkReconstructionByDilationImageFilter.h>

namespace {

[[noreturn]] void fail(const char *reason)
{
    std::fprintf(stderr, "itk: %s\n", reason);
    std::exit(1);
}

/* A raw PGM file whose header has been read. */
struct File {
    std::FILE *stream;
    unsigned width, height, maxval;
};

File open_file(const char *path)
{
    File file = {std::fopen(path, "rb"), 0, 0, 0};

    if (file.stream == nullptr
        || std::fscanf(file.stream, "P5 %u %u %u", &file.width, &file.height, &file.maxval) != 3)
        fail("cannot read a header");
    std::fgetc(file.stream);
    return file;
}

/* Reads the samples, of which those of 16 bits have their high byte first. */
template <typename Sample> typename itk::Image<Sample, 2>::Pointer read_picture(const File &file)
{
    auto picture = itk::Image<Sample, 2>::New();
    typename itk::Image<Sample, 2>::SizeType size = {{file.width, file.height}};
    std::size_t count = std::size_t(file.width) * file.height;

    picture->SetRegions(size);
    picture->Allocate();
    Sample *samples = picture->GetBufferPointer();
    std::vector<std::uint8_t> raster(count * sizeof(Sample));
    if (std::fread(raster.data(), 1, raster.size(), file.stream) != raster.size())
        fail("cannot read a raster");
    std::fclose(file.stream);
    if (sizeof(Sample) == 1) {
        std::memcpy(samples, raster.data(), count);
    } else {
        for (std::size_t i = 0; i < count; i++)
            samples[i] = Sample(raster[2 * i] << 8 | raster[2 * i + 1]);
    }
    return picture;
}

template <typename Sample> void write_picture(const Sample *samples, const File &file)
{
    std::size_t count = std::size_t(file.width) * file.height;
    std::vector<std::uint8_t> raster(count * sizeof(Sample));

    if (sizeof(Sample) == 1) {
        std::memcpy(raster.data(), samples, count);
    } else {
        for (std::size_t i = 0; i < count; i++) {
            raster[2 * i] = std::uint8_t(samples[i] >> 8);
            raster[2 * i + 1] = std::uint8_t(samples[i]);
        }
    }
    std::printf("P5\n%u %u\n%u\n", file.width, file.height, file.maxval);
    if (std::fwrite(raster.data(), 1, raster.size(), stdout) != raster.size())
        fail("cannot write");
}

template <typename Sample> void reconstruct(const File &mask, const File &marker, bool eight)
{
    using Picture = itk::Image<Sample, 2>;
    auto filter = itk::ReconstructionByDilationImageFilter<Picture, Picture>::New();

    filter->SetMaskImage(read_picture<Sample>(mask));
    filter->SetMarkerImage(read_picture<Sample>(marker));
    filter->SetFullyConnected(eight);
    filter->Update();
    write_picture(filter->GetOutput()->GetBufferPointer(), mask);
}

} // namespace

int main(int argc, char **argv)
{
    if (argc != 4)
        fail("usage: itk 4|8 MASK MARKER");
    bool eight = std::strcmp(argv[1], "8") == 0;
    File mask = open_file(argv[2]), marker = open_file(argv[3]);
    if (mask.maxval < 256)
        reconstruct<std::uint8_t>(mask, marker, eight);
    else
        reconstruct<std::uint16_t>(mask, marker, eight);
    return 0;
}
