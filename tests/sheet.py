"""The built sheet against the second program's: good inputs, wrong secrets and counters, every length that decides,
and one flipped bit in each part of the volume and of each byte of the head.

"""
import inputs
import sheet

inputs.compare("sheet", sheet.line, lambda source: inputs.around_the_sample(source, 60), inputs.REFUSALS)
