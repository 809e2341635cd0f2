from ._values import Decoder as Decoder
