"""QEMU's command line: what can't be recorded is refused, and what the recording needs is added."""
import json
import os

from qemu_log import Unsupported

MOST_RAM = 4 << 30  # with more it isn't certain what an address means: QEMU 7.2 tells the place in the memory's file
# a machine, whether of qemu-system-aarch64, where its memory begins; from how much on only the last number of bytes lies there
MACHINES = [
    ('pc-q35', False, 0, 0xb0000000, 0x80000000), ('q35', False, 0, 0xb0000000, 0x80000000),
    ('pc-i440fx', False, 0, 0xe0000000, 0xc0000000), ('pc', False, 0, 0xe0000000, 0xc0000000),
    ('microvm', False, 0, 0xc0000000, 0xc0000000), ('virt', True, 0x40000000, MOST_RAM + 1, 0)]
UNITS = {'': 1 << 20, 'b': 1, 'k': 1 << 10, 'm': 1 << 20, 'g': 1 << 30, 't': 1 << 40}
PLUGIN_FLAGS = ('-O2', '-shared', '-fPIC', '-fvisibility=hidden')  # of the compiler
CONTROLLERS = ('qemu-xhci', 'nec-usb-xhci')
# QEMU's trace lines that are read; with a * none of them is an error where this QEMU lacks it
TRACES = [word for name in ('oper_read', 'oper_write', 'runtime_write', 'port_write', 'doorbell_write', 'cap_read', 'fetch_trb', 'queue_event',
                            'reset') for word in ('-trace', f'usb_xhci_{name}*')]
OWN = ('-D', '-d', '-trace', '-plugin', '-daemonize')
DISPLAYS = ('-display', '-nographic', '-vnc', '-curses')
NO_START = ('-loadvm', '-incoming')
OTHER_RAM = ('-numa', '-mem-path', '-mem-prealloc')


def options(arguments):
    """Pairs of an option and what follows it: '' where that is an option too."""
    for i, option in enumerate(arguments):
        if option.startswith('-'):
            option = option[1:] if option.startswith('--') else option
            value = arguments[i + 1] if i + 1 < len(arguments) else ''
            yield option, '' if value.startswith('-') else value


def fields(value, first):
    """A QEMU option's `a,b=c`, or the same as JSON, as a dictionary; the first field may stand without its name."""
    if value.startswith('{'):
        try:
            return {name: str(field) for name, field in json.loads(value).items()}
        except ValueError:
            raise Unsupported(f'{value} is no JSON') from None
    pairs = [field.partition('=') for field in value.split(',')]
    named = {name: text for name, equals, text in pairs if equals}
    if pairs and not pairs[0][1]:
        named.setdefault(first, pairs[0][0])
    return named


def bytes_of(text):
    number = text.rstrip('bBkKmMgGtT')
    unit = text[len(number):].lower()
    if not number.isdigit() or unit not in UNITS:
        raise Unsupported(f'the size of memory {text} is not understood')
    return int(number) * UNITS[unit]


def ram_size(given):
    size = 256 << 20
    for option, value in given:
        if option == '-m':
            memory = fields(value, 'size')
            if 'maxmem' in memory or 'slots' in memory:
                raise Unsupported('memory that can grow is not in one block')
            size = bytes_of(memory.get('size', '256'))
    if size > MOST_RAM:
        raise Unsupported('more than 4 GB of memory can not be recorded')
    return size


def refuse_processors(given):
    for option, value in given:
        if option == '-smp' and any(count not in ('', '1') for name, count in fields(value, 'cpus').items()):
            raise Unsupported('more than one CPU can not be recorded: their stores have no one order here')
        accelerator = value if option == '-accel' else fields(value, 'type').get('accel', '') if option in ('-machine', '-M') else ''
        if option == '-enable-kvm' or (accelerator and not accelerator.startswith('tcg')):
            raise Unsupported('recording needs the accelerator tcg, which runs the guest instruction by instruction')
        if 'thread=multi' in value:
            raise Unsupported('recording needs thread=single')


def refuse_memory(given):
    for option, value in given:
        backend = option == '-object' and fields(value, 'qom-type').get('qom-type', '').startswith('memory-backend')
        if option in OTHER_RAM or backend or (option in ('-machine', '-M') and 'memory-backend' in value):
            raise Unsupported(f'{option} gives the machine other memory than what is recorded')
        if option in ('-machine', '-M') and 'max-ram-below-4g' in value:
            raise Unsupported('max-ram-below-4g moves the memory to where it is not looked for')


def ram_blocks(qemu, given, size):
    """Where the memory begins, and how many of its bytes lie there: all others are at 4 GB."""
    kinds = [fields(value, 'type')['type'] for option, value in given if option in ('-machine', '-M') and 'type' in fields(value, 'type')]
    kind = kinds[-1] if kinds else 'pc'
    is_arm = 'aarch64' in os.path.basename(qemu)
    for name, arm, base, most, low in MACHINES:
        if (kind == name or kind.startswith(name + '-')) and arm == is_arm:
            return base, size if size < most else low
    raise Unsupported(f'the machine {kind}: only pc, q35, microvm and virt of qemu-system-aarch64 are known to have their memory where '
                      'it is looked for')


def refuse_devices(given):
    for option, value in given:
        if 'iommu' in value.lower() and option in ('-device', '-machine', '-M'):
            raise Unsupported('an IOMMU: the addresses of the controller would not be those of the memory')
        if option in OWN:
            raise Unsupported(f'{option} is what xrecord itself gives QEMU')
        if option in NO_START:
            raise Unsupported(f'{option}: a recording begins with the machine switched on')
    devices = [fields(value, 'driver').get('driver') for option, value in given if option == '-device']
    count = sum(device in CONTROLLERS for device in devices)
    if count != 1:
        raise Unsupported(f'exactly one xHCI controller is needed (-device qemu-xhci), and there are {count}')


def command(qemu, arguments, plugin, ram, log, history):
    """The whole command line, or Unsupported."""
    given = list(options(arguments))
    size = ram_size(given)
    refuse_processors(given)
    refuse_memory(given)
    refuse_devices(given)
    base, low = ram_blocks(qemu, given, size)
    line = [qemu, *arguments, '-accel', 'tcg,thread=single', '-machine', 'memory-backend=xrecord', '-object',
            f'memory-backend-file,id=xrecord,size={size},mem-path={ram},share=on', *TRACES, '-d', 'plugin', '-D', log,
            '-plugin', f'file={plugin},ram={ram},log={log},history={history},base={base},low={low}']
    if not any(option == '-m' for option, value in given):
        line += ['-m', f'size={size >> 20}M']
    if not any(option in DISPLAYS for option, value in given):
        line += ['-display', 'none']
    return line, size
