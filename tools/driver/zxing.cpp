// One call for the driver: zxing-cpp reads a picture of a label, one grey byte a module, as its fastest settings do.
#include <ZXing/ReadBarcode.h>
#include <algorithm>
#include <cstdint>

// Reads a picture of width × width bytes, 0 dark and 255 light. Writes at most `room` bytes of what the label holds;
// answers how many bytes it holds, or -1 where nothing was read.
extern "C" long zxing_read(const uint8_t *picture, int width, uint8_t *text, long room) noexcept
{
	const auto hints = ZXing::DecodeHints()
						   .setFormats(ZXing::BarcodeFormat::QRCode)
						   .setIsPure(true)
						   .setBinarizer(ZXing::Binarizer::BoolCast)
						   .setTryHarder(false)
						   .setTryRotate(false)
						   .setTryDownscale(false);
	try {
		const auto result = ZXing::ReadBarcode({picture, width, width, ZXing::ImageFormat::Lum}, hints);
		if (!result.isValid())
			return -1;
		const auto &bytes = result.bytes();
		const long n = static_cast<long>(bytes.size());
		std::copy_n(bytes.begin(), std::min(n, room), text);
		return n;
	} catch (...) {
		return -1;
	}
}
